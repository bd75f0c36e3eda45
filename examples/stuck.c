/* Two ways in which a shard stops with both of its nodes healthy, and what helps: to promote again.
 *
 * Both are in the Rust as well (docs/DIFFERENCES.md); no write is lost. docs/HOST.md says how a host sees them coming.
 * Nodes 1 and 2 hold the one shard, node 1 is primary. Each story plays the calls by hand, in the order that matters;
 * examples/dome.c shows how a host makes them in a loop.
 */
#include <inttypes.h>
#include <stdio.h>
#include <stdlib.h>

#include "catalogue.h"
#include "catalogue_messages.h"
#include "catalogue_words.h"

#define LENT(array) (array), sizeof(array)
#define STARS (const uint8_t *)"stars", 5, 0

enum { NODES = 2, LEASE = 10000, ACK_TIMEOUT = 100, TECHNICIAN = 1, PRIMARY = 2, EUCLIDEAN = 0 };

static uint8_t map[CATALOGUE_MAP], key[CATALOGUE_KEY];
static uint8_t header[NODES][CATALOGUE_HEADER], stores[NODES][CATALOGUE_STORES], refused[CATALOGUE_REFUSED];
static uint64_t last_index, epoch;

static void must(const char *call, uint32_t said, uint32_t expected)
{
    if (said == expected)
        return;
    fprintf(stderr, "stuck: %s answered %" PRIu32 " where %" PRIu32 " belongs\n", call, said, expected);
    exit(EXIT_FAILURE);
}

/* ---- the map */

static struct catalogue_stamp stamp_of(uint64_t client)
{
    last_index++;
    struct catalogue_stamp by = {last_index, client, last_index}; /* indexes rise, and so do each client's seqs */
    return by;
}

static void apply(const struct catalogue_message *m, uint32_t expected)
{
    must("catalogue_apply", catalogue_apply(LENT(map), m->bytes, m->len), expected);
}

/* A Shrink or an Expand of node 2, or a Promote of node 1. */
static void change(uint8_t command, uint32_t expected)
{
    struct catalogue_message m;
    uint64_t client = command == CATALOGUE_COMMAND_PROMOTE ? TECHNICIAN : PRIMARY;
    catalogue_make_change(&m, stamp_of(client), command, key, command == CATALOGUE_COMMAND_PROMOTE ? 1 : 2, epoch);
    apply(&m, expected);
}

static void show_map(int node)
{
    static uint8_t starts[CATALOGUE_STARTS];
    uint8_t count[CATALOGUE_ANSWER];
    must("catalogue_show_map", catalogue_show_map(LENT(header[node]), LENT(map), 2, LENT(starts), LENT(count)),
         CATALOGUE_DONE);
}

static void begin(void)
{
    struct catalogue_message m;
    uint8_t lists[CATALOGUE_LISTS];
    epoch = 1;
    must("catalogue_empty_map", catalogue_empty_map(LENT(map)), CATALOGUE_DONE);
    for (int i = 0; i < NODES; i++) {
        catalogue_make_register(&m, stamp_of(TECHNICIAN), (uint64_t)i + 1, "projector", 1);
        apply(&m, CATALOGUE_DONE);
        must("catalogue_fresh_node", catalogue_fresh_node(LENT(header[i]), (uint64_t)i + 1, 1), CATALOGUE_DONE);
    }
    must("catalogue_place", catalogue_place(LENT(map), 1, NODES, LENT(lists)), CATALOGUE_DONE);
    catalogue_make_create(&m, stamp_of(TECHNICIAN), "stars", 1, EUCLIDEAN, 1, NODES, lists);
    apply(&m, CATALOGUE_DONE);
    catalogue_make_key(key, "stars", 0);
    for (int i = 0; i < NODES; i++) {
        show_map(i);
        must("catalogue_grant", catalogue_grant(LENT(header[i]), 1, 0, LEASE), CATALOGUE_DONE);
    }
}

/* ---- node 1, the primary */

static void write_star(uint64_t least, uint32_t expected)
{
    struct catalogue_message m;
    struct catalogue_op star = {CATALOGUE_UPSERT, 7, 1, {1}};
    uint8_t offset[CATALOGUE_ANSWER];
    catalogue_make_write(&m, key, epoch, &star);
    must("catalogue_write",
         catalogue_write(LENT(header[0]), LENT(stores[0]), LENT(refused), 1, least, m.bytes, m.len, LENT(offset)),
         expected);
}

/* Asks for a write, and sees whether the wait calls for a Shrink of node 2. */
static void ask_wait(uint64_t offset, uint64_t now, uint32_t expected, uint64_t shrinks)
{
    uint8_t peers[CATALOGUE_PEERS], count[CATALOGUE_ANSWER];
    must("catalogue_wait",
         catalogue_wait(LENT(header[0]), STARS, epoch, offset, now, ACK_TIMEOUT, LENT(peers), LENT(count)), expected);
    if (catalogue_u64(count) != shrinks)
        must("the count of Shrinks", (uint32_t)catalogue_u64(count), (uint32_t)shrinks);
}

static void tell_outcome(uint8_t command, uint8_t applied)
{
    must("catalogue_outcome", catalogue_outcome(LENT(header[0]), STARS, epoch, 2, command, applied), CATALOGUE_DONE);
}

/* A step of the worker for node 2: its request is carried over, and the reply back. */
static void carry(uint32_t expected)
{
    static uint8_t request[CATALOGUE_REQUEST];
    uint8_t len[CATALOGUE_ANSWER], reply[CATALOGUE_REPLY];
    uint32_t (*call)(uint8_t *, size_t, uint8_t *, size_t, const uint8_t *, size_t, uint8_t *, size_t);
    uint32_t step =
        catalogue_step(LENT(header[0]), LENT(stores[0]), STARS, epoch, 2, EUCLIDEAN, LENT(request), LENT(len));
    call = step == CATALOGUE_STEP_ALIGN       ? catalogue_new_epoch
           : step == CATALOGUE_STEP_REPLICATE ? catalogue_replicate
                                              : catalogue_copy;
    must("the request's call", call(LENT(header[1]), LENT(stores[1]), request, (size_t)catalogue_u64(len), LENT(reply)),
         CATALOGUE_DONE);
    must("catalogue_ack", catalogue_ack(LENT(header[0]), STARS, epoch, 2, (uint8_t)step, LENT(reply)), expected);
}

static void expect_nothing_to_send(void)
{
    static uint8_t request[CATALOGUE_REQUEST];
    uint8_t len[CATALOGUE_ANSWER];
    must("catalogue_step",
         catalogue_step(LENT(header[0]), LENT(stores[0]), STARS, epoch, 2, EUCLIDEAN, LENT(request), LENT(len)),
         CATALOGUE_STEP_WAIT);
}

/* ---- the stories */

/* Node 2 is aligned, and is then too slow for a write: its Shrink is proposed. */
static void shrink_is_proposed(uint64_t least)
{
    carry(CATALOGUE_DONE);
    write_star(least, CATALOGUE_DONE);
    ask_wait(1, 10, CATALOGUE_WAITING, 0);
    ask_wait(1, 111, CATALOGUE_WAITING, 1);
}

static void promote_again(void)
{
    change(CATALOGUE_COMMAND_PROMOTE, CATALOGUE_DONE);
    epoch++;
    show_map(0);
    printf("  node 1 is promoted again, epoch %" PRIu64 ": its worker aligns node 2 anew\n", epoch);
    carry(CATALOGUE_PROPOSE);
    change(CATALOGUE_COMMAND_EXPAND, CATALOGUE_DONE);
    tell_outcome(CATALOGUE_COMMAND_EXPAND, 1);
}

static void caught_up_too_late(void)
{
    printf("A peer catches up while its Shrink is under way\n");
    begin();
    shrink_is_proposed(2);
    carry(CATALOGUE_DONE);
    ask_wait(1, 112, CATALOGUE_DONE, 0);
    printf("  node 2 has the write, which is acknowledged; its Shrink is still under way, and is applied\n");
    change(CATALOGUE_COMMAND_SHRINK, CATALOGUE_DONE);
    tell_outcome(CATALOGUE_COMMAND_SHRINK, 1);
    expect_nothing_to_send();
    write_star(2, CATALOGUE_TOO_FEW_IN_SYNC);
    printf("  every step is Wait, so that no ack comes; a write is 20: %s\n", catalogue_refusal(20));
    promote_again();
    write_star(2, CATALOGUE_DONE);
    carry(CATALOGUE_DONE);
    ask_wait(2, 113, CATALOGUE_DONE, 0);
    printf("  a write is taken with two in sync, and acknowledged\n");
}

static void lost_expand(void)
{
    printf("An Expand is lost, and told as a timeout\n");
    begin();
    shrink_is_proposed(1);
    change(CATALOGUE_COMMAND_SHRINK, CATALOGUE_DONE);
    tell_outcome(CATALOGUE_COMMAND_SHRINK, 1);
    carry(CATALOGUE_PROPOSE);
    tell_outcome(CATALOGUE_COMMAND_EXPAND, 0); /* it never reaches the map */
    printf("  node 2 is in the ack set of node 1, and the map does not list it in sync\n");
    write_star(1, CATALOGUE_DONE);
    ask_wait(2, 200, CATALOGUE_WAITING, 0);
    for (uint64_t now = 301; now < 304; now++) {
        ask_wait(2, now, CATALOGUE_WAITING, 1);
        change(CATALOGUE_COMMAND_SHRINK, CATALOGUE_REJECTED_NOT_IN_SYNC);
        tell_outcome(CATALOGUE_COMMAND_SHRINK, 0);
    }
    printf("  it does not answer, and each Shrink is rejected, 14: %s\n", catalogue_rejection(14));
    change(CATALOGUE_COMMAND_PROMOTE, CATALOGUE_DONE);
    epoch++;
    show_map(0);
    printf("  node 1 is promoted again, epoch %" PRIu64 ": its ack set is the map's, itself alone\n", epoch);
    write_star(1, CATALOGUE_DONE);
    ask_wait(3, 305, CATALOGUE_DONE, 0);
    printf("  a write is acknowledged; whoever waited for the one before hears 18, and sends it anew\n");
}

int main(void)
{
    caught_up_too_late();
    lost_expand();
    return 0;
}
