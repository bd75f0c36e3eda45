/* A node is replaced: docs/HOST.md, 'Replacing a node', step by step.
 *
 * Nodes 1, 2 and 3 hold the one shard, node 1 is primary, and node 4 is new. Node 3 burns. AddReplica, RemoveReplica
 * and MarkNodeDead are not among the commands of a run, so that no theorem speaks of this; the order of the steps keeps
 * clear of what can go wrong. At the end node 4 is primary and finds what was written before it came.
 */
#include <inttypes.h>
#include <stdio.h>
#include <stdlib.h>

#include "catalogue.h"
#include "catalogue_images.h"
#include "catalogue_messages.h"

#define LENT(array) (array), sizeof(array)
#define STARS (const uint8_t *)"stars", 5, 0

enum { NODES = 4, HOLDERS = 3, LEASE = 10000, ACK_TIMEOUT = 100, EUCLIDEAN = 0 };
enum { TECHNICIAN = 1, PRIMARY = 2 }; /* client numbers */

static uint8_t map[CATALOGUE_MAP], key[CATALOGUE_KEY];
static uint8_t header[NODES + 1][CATALOGUE_HEADER], stores[NODES + 1][CATALOGUE_STORES], refused[CATALOGUE_REFUSED];
static uint64_t last_index, epoch = 1;

static void must(const char *call, uint32_t said, uint32_t expected)
{
    if (said == expected)
        return;
    fprintf(stderr, "replace: %s answered %" PRIu32 " where %" PRIu32 " belongs\n", call, said, expected);
    exit(EXIT_FAILURE);
}

/* ---- the map */

static struct catalogue_stamp stamp_of(uint64_t client)
{
    last_index++;
    struct catalogue_stamp by = {last_index, client, last_index};
    return by;
}

static void apply(const struct catalogue_message *m)
{
    must("catalogue_apply", catalogue_apply(LENT(map), m->bytes, m->len), CATALOGUE_DONE);
}

/* Remove, Promote, Shrink or Expand. */
static void change(uint64_t client, uint8_t command, uint64_t node)
{
    struct catalogue_message m;
    catalogue_make_change(&m, stamp_of(client), command, key, node, epoch);
    apply(&m);
}

static void show_map(uint64_t node)
{
    static uint8_t starts[CATALOGUE_STARTS];
    uint8_t count[CATALOGUE_ANSWER];
    must("catalogue_show_map", catalogue_show_map(LENT(header[node]), LENT(map), 2, LENT(starts), LENT(count)),
         CATALOGUE_DONE);
    must("catalogue_grant", catalogue_grant(LENT(header[node]), 1, 0, LEASE), CATALOGUE_DONE);
}

static void begin(void)
{
    struct catalogue_message m;
    uint8_t lists[CATALOGUE_LISTS];
    must("catalogue_empty_map", catalogue_empty_map(LENT(map)), CATALOGUE_DONE);
    for (uint64_t id = 1; id <= HOLDERS; id++) {
        catalogue_make_register(&m, stamp_of(TECHNICIAN), id, "projector", 1);
        apply(&m);
        must("catalogue_fresh_node", catalogue_fresh_node(LENT(header[id]), id, 1), CATALOGUE_DONE);
    }
    must("catalogue_place", catalogue_place(LENT(map), 1, HOLDERS, LENT(lists)), CATALOGUE_DONE);
    catalogue_make_create(&m, stamp_of(TECHNICIAN), "stars", 1, EUCLIDEAN, 1, HOLDERS, lists);
    apply(&m);
    catalogue_make_key(key, "stars", 0);
    for (uint64_t id = 1; id <= HOLDERS; id++)
        show_map(id);
}

/* ---- node 1, the primary */

static void write_star(uint64_t least)
{
    struct catalogue_message m;
    struct catalogue_op star = {CATALOGUE_UPSERT, 7, 1, {1}};
    uint8_t offset[CATALOGUE_ANSWER];
    catalogue_make_write(&m, key, epoch, &star);
    must("catalogue_write",
         catalogue_write(LENT(header[1]), LENT(stores[1]), LENT(refused), 1, least, m.bytes, m.len, LENT(offset)),
         CATALOGUE_DONE);
}

/* Asks for a write. Which peer a Shrink is to be proposed of, 0 for none. */
static uint64_t ask_wait(uint64_t offset, uint64_t now, uint32_t expected)
{
    uint8_t peers[CATALOGUE_PEERS], count[CATALOGUE_ANSWER];
    must("catalogue_wait",
         catalogue_wait(LENT(header[1]), STARS, epoch, offset, now, ACK_TIMEOUT, LENT(peers), LENT(count)), expected);
    return catalogue_u64(count) == 0 ? 0 : catalogue_u64(peers);
}

static void propose(uint8_t command, uint64_t peer)
{
    change(PRIMARY, command, peer);
    must("catalogue_outcome", catalogue_outcome(LENT(header[1]), STARS, epoch, peer, command, 1), CATALOGUE_DONE);
}

/* The worker for a peer steps until there is nothing to send, and each request is carried over and its reply back.
 * Whether the peer is to be expanded. */
static int catch_up(uint64_t peer)
{
    static uint8_t request[CATALOGUE_REQUEST];
    uint8_t len[CATALOGUE_ANSWER], reply[CATALOGUE_REPLY];
    int expand = 0;
    for (;;) {
        uint32_t (*call)(uint8_t *, size_t, uint8_t *, size_t, const uint8_t *, size_t, uint8_t *, size_t);
        uint32_t step =
            catalogue_step(LENT(header[1]), LENT(stores[1]), STARS, epoch, peer, EUCLIDEAN, LENT(request), LENT(len));
        if (step == CATALOGUE_STEP_WAIT || step == CATALOGUE_STEP_STOP)
            return expand;
        call = step == CATALOGUE_STEP_ALIGN       ? catalogue_new_epoch
               : step == CATALOGUE_STEP_REPLICATE ? catalogue_replicate
                                                  : catalogue_copy;
        must("the request's call",
             call(LENT(header[peer]), LENT(stores[peer]), request, (size_t)catalogue_u64(len), LENT(reply)),
             CATALOGUE_DONE);
        if (catalogue_ack(LENT(header[1]), STARS, epoch, peer, (uint8_t)step, LENT(reply)) == CATALOGUE_PROPOSE)
            expand = 1;
    }
}

/* ---- the steps */

static void node_3_burns(void)
{
    catch_up(2);
    catch_up(3);
    write_star(2);
    catch_up(2);
    ask_wait(1, 10, CATALOGUE_WAITING);
    if (ask_wait(1, 111, CATALOGUE_WAITING) != 3)
        must("the peer to shrink", 0, 3);
    propose(CATALOGUE_COMMAND_SHRINK, 3);
    ask_wait(1, 112, CATALOGUE_DONE);
    puts("1, 2  node 3 does not answer and is shrunk; the write is acknowledged by nodes 1 and 2");
}

static void node_4_joins(void)
{
    struct catalogue_message m;
    uint8_t chosen[CATALOGUE_ANSWER];
    catalogue_make_register(&m, stamp_of(TECHNICIAN), 4, "projector", 1);
    apply(&m);
    must("catalogue_fresh_node", catalogue_fresh_node(LENT(header[4]), 4, 1), CATALOGUE_DONE);
    must("catalogue_replacement", catalogue_replacement(LENT(map), STARS, LENT(chosen)), CATALOGUE_DONE);
    catalogue_make_add_replica(&m, stamp_of(TECHNICIAN), key, catalogue_u64(chosen), 1, epoch);
    apply(&m);
    show_map(1);
    show_map(4);
    printf("3     node %" PRIu64 " is to take a replica, and is added\n", catalogue_u64(chosen));
    if (!catch_up(4))
        must("an Expand of node 4", 0, 1);
    propose(CATALOGUE_COMMAND_EXPAND, 4);
    puts("4     it has caught up, and is in sync");
}

static void node_3_is_removed(void)
{
    struct catalogue_message m;
    catalogue_make_mark_dead(&m, stamp_of(TECHNICIAN), 3, 1);
    apply(&m);
    change(TECHNICIAN, CATALOGUE_COMMAND_REMOVE, 3);
    show_map(1);
    puts("5     node 3 is marked dead and removed; a reply of it would now be dropped");
}

static void node_4_leads(void)
{
    struct catalogue_message m;
    const float here[] = {0};
    uint8_t hits[CATALOGUE_HIT], count[CATALOGUE_ANSWER];
    change(TECHNICIAN, CATALOGUE_COMMAND_PROMOTE, 4);
    epoch++;
    show_map(4);
    catalogue_make_search(&m, key, epoch, 1, here, 1);
    must("catalogue_search",
         catalogue_search(LENT(header[4]), LENT(stores[4]), LENT(refused), 1, m.bytes, m.len, LENT(hits), LENT(count)),
         CATALOGUE_DONE);
    if (catalogue_u64(count) != 1)
        must("the neighbours", (uint32_t)catalogue_u64(count), 1);
    printf("      promoted, node 4 finds the star that was written before it came: %" PRIu64 "\n", catalogue_u64(hits));
}

static void the_season_ends(void)
{
    struct catalogue_message m;
    catalogue_make_drop(&m, stamp_of(TECHNICIAN), "stars");
    apply(&m);
    show_map(4);
    if (catalogue_u64(header[4] + CATALOGUE_HEADER_HELD_COUNT) != 0)
        must("the shards held", 1, 0);
    puts("      the collection is dropped, and node 4 holds nothing");
}

int main(void)
{
    begin();
    node_3_burns();
    node_4_joins();
    node_3_is_removed();
    node_4_leads();
    the_season_ends();
    return 0;
}
