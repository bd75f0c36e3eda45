/* replay: calls in, answers out, for whoever holds one build of the engine against another, or against the Rust. It
 * reads calls from standard input, makes them through include/catalogue.h and prints what each answers; docs/ORACLE.md,
 * 'replay', has the records and the lines. It also shows a whole host: who owns the images, and which call gets what.
 *
 *     replay              calls on a map and nodes
 *     replay --shard-of   records of program `shardof`, answered by catalogue_shard_of
 *     replay --version    the library's version, as catalogue_version tells it
 *
 * A record that is cut short, an unknown call or a node above 8 ends the program quietly, as the input's end does.
 * Status 1, with a line on standard error, is for input that cannot be read, output that cannot be written, and an
 * engine that answers what catalogue.h or docs/IMAGES.md rule out. */
#include "catalogue.h"
#include "dump.h"
#include "catalogue_images.h"
#include "print.h"

#include <errno.h>
#include <inttypes.h>
#include <stdbool.h>
#include <stdio.h>
#include <stdlib.h>
#include <string.h>

/* ---- the state that this host owns */

/* `lease`, `ack_timeout` and `min_in_sync` are no part of the engine's state: a host hands them to each call. */
struct node {
    bool made;
    uint64_t lease;
    uint64_t ack_timeout;
    uint64_t min_in_sync;
    uint8_t header[CATALOGUE_HEADER];
    uint8_t stores[CATALOGUE_STORES];
    uint8_t refused[CATALOGUE_REFUSED];
};

enum { NODES = 8 };

static uint8_t map[CATALOGUE_MAP];
static struct node nodes[NODES];

/* ---- a record */

enum { CALL_MAKE = 0, CALLS = 18, HEAD_BYTES = 12, OPERANDS_MOST = UINT16_MAX };

struct record {
    uint8_t call;
    uint8_t number; /* of the node, 0 to 8 */
    uint64_t now;
    struct node *node; /* NULL in a call on the map */
    const uint8_t *at; /* operands still to read */
    size_t left;       /* how many bytes they are */
};

/* The next operands. The table of calls says how many there are at least, so this fails only if it is wrong. */
static const uint8_t *take(struct record *r, size_t count)
{
    if (r->left < count)
        fail("operands read past their end, in call", r->call);
    const uint8_t *taken = r->at;
    r->at += count;
    r->left -= count;
    return taken;
}

static uint64_t take_u64(struct record *r)
{
    return catalogue_u64(take(r, 8));
}

static uint32_t take_u32(struct record *r)
{
    return catalogue_u32(take(r, 4));
}

static uint8_t take_u8(struct record *r)
{
    return *take(r, 1);
}

/* A key in the input is that of the wire (docs/LAYOUT.md, 'Parts'); the calls take its name and its number. */
struct key {
    bool decodes;
    const uint8_t *name;
    size_t length;
    uint32_t shard;
};

/* A length of 0 to 32, so many bytes of 20 to 7E, zeros up to 32, then the number. */
static bool key_decodes(const uint8_t *key)
{
    size_t length = key[0];
    if (length > CATALOGUE_NAME_MOST)
        return false;
    for (size_t i = 0; i < CATALOGUE_NAME_MOST; i++) {
        uint8_t byte = key[1 + i];
        if (i < length ? byte < 0x20 || byte > 0x7E : byte != 0)
            return false;
    }
    return true;
}

static struct key take_key(struct record *r)
{
    const uint8_t *bytes = take(r, CATALOGUE_KEY);
    struct key key = {key_decodes(bytes), bytes + 1, bytes[0], catalogue_u32(bytes + 1 + CATALOGUE_NAME_MOST)};
    return key;
}

/* ---- refusals */

static const char unlisted[] = "the call's answer is not one that catalogue.h lists";

/* 18 is not for here: its epoch would be missing. */
static void refuse(uint32_t number)
{
    if (number < CATALOGUE_UNKNOWN_SHARD || number == CATALOGUE_NOT_PRIMARY || number > CATALOGUE_NO_WORKER)
        fail(unlisted, number);
    printf("refused %" PRIu32 "\n", number);
}

/* Where 18 may come, with the shard's own epoch in `answer`. */
static void refuse_with(uint32_t number, const uint8_t *answer)
{
    if (number == CATALOGUE_NOT_PRIMARY)
        printf("refused 18 %" PRIu64 "\n", catalogue_u64(answer));
    else
        refuse(number);
}

static void say_ok(uint32_t said)
{
    if (said == CATALOGUE_DONE)
        puts("ok");
    else
        refuse(said);
}

/* ---- calls on the map */

static const char *apply_word(uint32_t said)
{
    if (said == CATALOGUE_DONE)
        return "applied";
    if (said < CATALOGUE_UNKNOWN_SHARD) /* 1 to 16: the reasons */
        return "rejected";
    if (said < CATALOGUE_NO_ROOM || said > CATALOGUE_LAST_EPOCH)
        fail(unlisted, said);
    return "refused";
}

static void on_apply(struct record *r)
{
    uint32_t said = catalogue_apply(map, sizeof map, r->at, r->left);
    if (said == CATALOGUE_UNDECODABLE) {
        refuse(said);
        return;
    }
    const char *word = apply_word(said);
    uint64_t index = catalogue_u64(take(r, 9) + 1); /* the request decoded, so it has one */
    printf("%" PRIu64 " %s %" PRIu32 " %" PRIu64 "\n", index, word, said, catalogue_u64(map + CATALOGUE_MAP_VERSION));
}

static void on_map(struct record *r)
{
    (void)r;
    print_map(map);
}

enum { LISTS_MOST = CATALOGUE_LISTS / (CATALOGUE_REPLICAS_MOST * 8) };

/* Ids of nodes, u64 each; a bare word where the replication is 0. */
static void print_list(const uint8_t *list, size_t length)
{
    fputs("list", stdout);
    for (size_t i = 0; i < length; i++)
        print_number(catalogue_u64(list + i * 8));
    putchar('\n');
}

static void on_place(struct record *r)
{
    uint8_t lists[CATALOGUE_LISTS] = {0};
    uint32_t shards = take_u32(r);
    uint32_t replication = take_u32(r);
    uint32_t said = catalogue_place(map, sizeof map, shards, replication, lists, sizeof lists);
    if (said == CATALOGUE_NONE) {
        puts("none");
        return;
    }
    if (said != CATALOGUE_DONE) {
        refuse(said);
        return;
    }
    size_t count = within(shards, LISTS_MOST, "lists of a placement, above 16");
    size_t length = within(replication, CATALOGUE_REPLICAS_MOST, "nodes in a list of a placement, above 8");
    print_line("placed", count);
    for (size_t i = 0; i < count; i++)
        print_list(lists + i * length * 8, length); /* side by side, with nothing between them */
}

static void on_replacement(struct record *r)
{
    uint8_t answer[CATALOGUE_ANSWER] = {0};
    struct key key = take_key(r);
    if (!key.decodes) {
        refuse(CATALOGUE_UNDECODABLE);
        return;
    }
    uint32_t said = catalogue_replacement(map, sizeof map, key.name, key.length, key.shard, answer, sizeof answer);
    if (said == CATALOGUE_DONE)
        print_line("node", catalogue_u64(answer));
    else if (said == CATALOGUE_NONE)
        puts("none");
    else
        refuse(said);
}

/* ---- calls on a node: made, shown a map, granted a lease */

/* A node that was there before is gone: its stores need no clearing, the header says that nothing is held. */
static void on_make(struct record *r)
{
    struct node *n = r->node;
    uint64_t id = take_u64(r);
    uint64_t incarnation = take_u64(r);
    uint32_t said = catalogue_fresh_node(n->header, sizeof n->header, id, incarnation);
    if (said != CATALOGUE_DONE)
        fail("no fresh node, but the answer", said); /* any two numbers make one */
    n->lease = take_u64(r);
    n->ack_timeout = take_u64(r);
    n->min_in_sync = take_u64(r);
    memset(n->refused, 0, sizeof n->refused);
    n->made = true;
    puts("ok");
}

/* Key, peer, epoch and metric, side by side. */
static void print_start(const uint8_t *start)
{
    fputs("worker", stdout);
    print_key(start);
    print_number(catalogue_u64(start + CATALOGUE_KEY));
    print_number(catalogue_u64(start + CATALOGUE_KEY + 8));
    print_number(start[CATALOGUE_KEY + 16]);
    putchar('\n');
}

static void on_shown(struct record *r)
{
    static uint8_t starts[CATALOGUE_STARTS];
    uint8_t answer[CATALOGUE_ANSWER] = {0};
    struct node *n = r->node;
    uint64_t fresh = take_u64(r);
    uint32_t said = catalogue_show_map(n->header, sizeof n->header, map, sizeof map, fresh, starts, sizeof starts,
                                       answer, sizeof answer);
    if (said != CATALOGUE_DONE) {
        refuse(said);
        return;
    }
    size_t count = within(catalogue_u64(answer), CATALOGUE_STARTS / CATALOGUE_START, "workers to start, above 256");
    print_line("shown", count);
    for (size_t i = 0; i < count; i++)
        print_start(starts + i * CATALOGUE_START);
}

static void on_grant(struct record *r)
{
    struct node *n = r->node;
    uint64_t incarnation = take_u64(r);
    uint64_t sent = take_u64(r);
    say_ok(catalogue_grant(n->header, sizeof n->header, incarnation, sent, n->lease));
}

/* ---- calls on a node: clients */

static void on_write(struct record *r)
{
    uint8_t answer[CATALOGUE_ANSWER] = {0};
    struct node *n = r->node;
    uint32_t said = catalogue_write(n->header, sizeof n->header, n->stores, sizeof n->stores, n->refused,
                                    sizeof n->refused, r->now, n->min_in_sync, r->at, r->left, answer, sizeof answer);
    if (said == CATALOGUE_DONE)
        print_line("accepted", catalogue_u64(answer));
    else
        refuse_with(said, answer);
}

static void print_hit(const uint8_t *hit)
{
    printf("%" PRIu64, catalogue_u64(hit));
    print_bits(catalogue_u32(hit + 8));
    putchar('\n');
}

static void on_search(struct record *r)
{
    static uint8_t hits[CATALOGUE_ENTRIES_MOST * CATALOGUE_HIT];
    uint8_t answer[CATALOGUE_ANSWER] = {0};
    struct node *n = r->node;
    uint32_t asked = take_u32(r);
    size_t room = asked < CATALOGUE_ENTRIES_MOST
                      ? asked
                      : CATALOGUE_ENTRIES_MOST; /* a log has no more, so more room changes nothing */
    uint32_t said =
        catalogue_search(n->header, sizeof n->header, n->stores, sizeof n->stores, n->refused, sizeof n->refused,
                         r->now, r->at, r->left, hits, room * CATALOGUE_HIT, answer, sizeof answer);
    if (said != CATALOGUE_DONE) {
        refuse_with(said, answer);
        return;
    }
    size_t count = within(catalogue_u64(answer), room, "neighbours found, above the room for them");
    print_line("found", count);
    for (size_t i = 0; i < count; i++)
        print_hit(hits + i * CATALOGUE_HIT);
}

static void on_wait(struct record *r)
{
    uint8_t peers[CATALOGUE_PEERS] = {0};
    uint8_t answer[CATALOGUE_ANSWER] = {0};
    struct node *n = r->node;
    struct key key = take_key(r);
    uint64_t epoch = take_u64(r);
    uint64_t offset = take_u64(r);
    if (!key.decodes) {
        refuse(CATALOGUE_UNDECODABLE);
        return;
    }
    uint32_t said = catalogue_wait(n->header, sizeof n->header, key.name, key.length, key.shard, epoch, offset, r->now,
                                   n->ack_timeout, peers, sizeof peers, answer, sizeof answer);
    if (said > CATALOGUE_WAITING) {
        refuse_with(said, answer);
        return;
    }
    size_t count = within(catalogue_u64(answer), CATALOGUE_PEERS_MOST, "peers to shrink, above 32");
    print_line(said == CATALOGUE_DONE ? "done" : "waiting", count);
    for (size_t i = 0; i < count; i++)
        print_line("shrink", catalogue_u64(peers + i * 8));
}

/* ---- calls on a node: what a primary sends it */

/* Replicate, NewEpoch and CopyShard have one shape. */
typedef uint32_t arrival(uint8_t *header, size_t header_len, uint8_t *stores, size_t stores_len, const uint8_t *message,
                         size_t message_len, uint8_t *reply, size_t reply_len);

static void print_reply(const uint8_t *reply)
{
    static const char *const words[] = {"stored", "gap", "stale", "adopted"};
    if (reply[0] < 0x30 || reply[0] > 0x33)
        fail("a reply with no listed code", reply[0]);
    print_line(words[reply[0] - 0x30], catalogue_u64(reply + 1));
}

static void arrive(struct record *r, arrival *call)
{
    uint8_t reply[CATALOGUE_REPLY] = {0};
    struct node *n = r->node;
    uint32_t said = call(n->header, sizeof n->header, n->stores, sizeof n->stores, r->at, r->left, reply, sizeof reply);
    if (said == CATALOGUE_DONE)
        print_reply(reply);
    else
        refuse(said);
}

static void on_replicate(struct record *r)
{
    arrive(r, catalogue_replicate);
}

static void on_new_epoch(struct record *r)
{
    arrive(r, catalogue_new_epoch);
}

static void on_copy(struct record *r)
{
    arrive(r, catalogue_copy);
}

/* ---- calls on a node: its workers */

static void on_step(struct record *r)
{
    static const char *const words[] = {"wait", "stop", "align", "replicate", "copy"};
    static uint8_t request[CATALOGUE_REQUEST];
    uint8_t answer[CATALOGUE_ANSWER] = {0};
    struct node *n = r->node;
    struct key key = take_key(r);
    uint64_t epoch = take_u64(r);
    uint64_t peer = take_u64(r);
    uint8_t metric = take_u8(r);
    if (!key.decodes) {
        refuse(CATALOGUE_UNDECODABLE);
        return;
    }
    uint32_t said = catalogue_step(n->header, sizeof n->header, n->stores, sizeof n->stores, key.name, key.length,
                                   key.shard, epoch, peer, metric, request, sizeof request, answer, sizeof answer);
    if (said > CATALOGUE_STEP_COPY) {
        refuse(said);
        return;
    }
    fputs(words[said], stdout);
    if (said >= CATALOGUE_STEP_ALIGN)
        print_hex(request, within(catalogue_u64(answer), sizeof request, "a request's length, above the longest"));
    putchar('\n');
}

static void on_ack(struct record *r)
{
    struct node *n = r->node;
    struct key key = take_key(r);
    uint64_t epoch = take_u64(r);
    uint64_t peer = take_u64(r);
    uint8_t step = take_u8(r);
    if (!key.decodes) {
        refuse(CATALOGUE_UNDECODABLE);
        return;
    }
    uint32_t said = catalogue_ack(n->header, sizeof n->header, key.name, key.length, key.shard, epoch, peer,
                                  (uint8_t)(step + CATALOGUE_STEP_ALIGN), r->at, r->left);
    if (said == CATALOGUE_PROPOSE)
        puts("expand");
    else
        say_ok(said);
}

static void on_outcome(struct record *r)
{
    struct node *n = r->node;
    struct key key = take_key(r);
    uint64_t epoch = take_u64(r);
    uint64_t peer = take_u64(r);
    uint8_t command = take_u8(r);
    uint8_t applied = take_u8(r);
    if (!key.decodes) {
        refuse(CATALOGUE_UNDECODABLE);
        return;
    }
    say_ok(
        catalogue_outcome(n->header, sizeof n->header, key.name, key.length, key.shard, epoch, peer, command, applied));
}

/* ---- the state of a node, for which the engine has no call */

static void on_held(struct record *r)
{
    const uint8_t *key = take(r, CATALOGUE_KEY);
    if (key_decodes(key))
        print_held(r->node->header, r->node->stores, key);
    else
        refuse(CATALOGUE_UNDECODABLE);
}

static void on_node(struct record *r)
{
    print_node(r->node->header, r->node->refused);
}

/* ---- the table of calls */

struct call {
    void (*run)(struct record *r);
    enum { OF_MAP, OF_NODE } whose;
    size_t fixed;                  /* bytes of its operands that every such call has */
    enum { ALL, AT_LEAST } length; /* whether those are all, or a message follows them */
};

static const struct call calls[CALLS] = {
    [CALL_MAKE] = {on_make, OF_NODE, 40, ALL},
    [1] = {on_apply, OF_MAP, 0, AT_LEAST},
    [2] = {on_shown, OF_NODE, 8, ALL},
    [3] = {on_grant, OF_NODE, 16, ALL},
    [4] = {on_write, OF_NODE, 0, AT_LEAST},
    [5] = {on_search, OF_NODE, 4, AT_LEAST},
    [6] = {on_replicate, OF_NODE, 0, AT_LEAST},
    [7] = {on_new_epoch, OF_NODE, 0, AT_LEAST},
    [8] = {on_copy, OF_NODE, 0, AT_LEAST},
    [9] = {on_wait, OF_NODE, CATALOGUE_KEY + 16, ALL},
    [10] = {on_step, OF_NODE, CATALOGUE_KEY + 17, ALL},
    [11] = {on_ack, OF_NODE, CATALOGUE_KEY + 17, AT_LEAST},
    [12] = {on_outcome, OF_NODE, CATALOGUE_KEY + 18, ALL},
    [13] = {on_held, OF_NODE, CATALOGUE_KEY, ALL},
    [14] = {on_node, OF_NODE, 0, ALL},
    [15] = {on_map, OF_MAP, 0, ALL},
    [16] = {on_place, OF_MAP, 8, ALL},
    [17] = {on_replacement, OF_MAP, CATALOGUE_KEY, ALL},
};

/* Whether there is a node to call: any of the eight can be made, the other calls need one that was. */
static bool node_there(const struct record *r)
{
    return r->number > 0 && (r->call == CALL_MAKE || nodes[r->number - 1].made);
}

static void answer_record(struct record *r)
{
    const struct call *call = &calls[r->call];
    if (call->whose == OF_NODE) {
        if (!node_there(r)) {
            puts("none");
            return;
        }
        r->node = &nodes[r->number - 1];
    }
    if (r->left < call->fixed || (call->length == ALL && r->left > call->fixed))
        refuse(CATALOGUE_UNDECODABLE); /* no call is made, so a Search without its room is not counted */
    else
        call->run(r);
}

/* ---- the input */

_Noreturn static void fail_at(const char *what)
{
    fprintf(stderr, "replay: %s: %s\n", what, strerror(errno));
    exit(EXIT_FAILURE);
}

/* Whether the input had so many bytes. */
static bool read_bytes(uint8_t *bytes, size_t count)
{
    size_t got = fread(bytes, 1, count, stdin);
    if (got < count && ferror(stdin))
        fail_at("standard input cannot be read");
    return got == count;
}

/* False where the program ends. */
static bool read_record(struct record *r)
{
    static uint8_t operands[OPERANDS_MOST];
    uint8_t head[HEAD_BYTES];
    if (!read_bytes(head, sizeof head))
        return false;
    r->call = head[0];
    r->number = head[1];
    r->now = catalogue_u64(head + 2);
    r->node = NULL;
    r->at = operands;
    r->left = (size_t)head[10] | (size_t)head[11] << 8;
    record_number++;
    return read_bytes(operands, r->left) && r->call < CALLS && r->number <= NODES;
}

static void answer_calls(void)
{
    struct record r;
    uint32_t said = catalogue_empty_map(map, sizeof map);
    if (said != CATALOGUE_DONE)
        fail("no empty map, but the answer", said);
    while (read_record(&r))
        answer_record(&r);
}

/* An id, u64, and a number of shards, u32, in each record. */
static void answer_ids(void)
{
    uint8_t record[12];
    while (read_bytes(record, sizeof record))
        printf("%" PRIu32 "\n", catalogue_shard_of(catalogue_u64(record), catalogue_u32(record + 8)));
}

static void answer_version(void)
{
    uint32_t version = catalogue_version();
    printf("%" PRIu32 ".%" PRIu32 ".%" PRIu32 "\n", version / 1000000, version / 1000 % 1000, version % 1000);
}

int main(int argc, char **argv)
{
    if (argc == 1)
        answer_calls();
    else if (argc == 2 && strcmp(argv[1], "--shard-of") == 0)
        answer_ids();
    else if (argc == 2 && strcmp(argv[1], "--version") == 0)
        answer_version();
    else {
        fputs("usage: replay [--shard-of | --version]\n", stderr);
        return EXIT_FAILURE;
    }
    if (fflush(stdout) != 0 || ferror(stdout))
        fail_at("standard output cannot be written");
    return EXIT_SUCCESS;
}
