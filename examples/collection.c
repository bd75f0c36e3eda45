/* A collection of four shards on two projectors is searched as a whole (paper 02, 2.2): a presenter asks every shard
 * for its nearest k, and the answers are joined. Beside it the same stars stand in a collection of one shard, where one
 * search finds the very same bytes.
 *
 * Nodes and map are in one process, so that the host is short; examples/dome.c has a whole dome. Nothing is random.
 * Build with -Iinclude, and link the engine's library.
 */
#include <inttypes.h>
#include <stdbool.h>
#include <stdio.h>
#include <stdlib.h>
#include <string.h>

#include "catalogue.h"
#include "catalogue_messages.h"
#include "catalogue_words.h"

#define LENT(array) (array), sizeof(array)

enum { NODES = 2, SHARDS = 4, STARS = 40, NEAREST = 10, EPOCH = 1, NOW = 10 };

/* What each projector keeps. */
static struct node {
    uint8_t header[CATALOGUE_HEADER], stores[CATALOGUE_STORES], refused[CATALOGUE_REFUSED];
} nodes[NODES];

static uint8_t map[CATALOGUE_MAP];
static uint8_t lists[CATALOGUE_LISTS]; /* the node of each shard of `stars` */

static void expect(const char *call, uint32_t said)
{
    if (said == CATALOGUE_DONE)
        return;
    const char *why = catalogue_refusal(said);
    fprintf(stderr, "%s answered %" PRIu32 ": %s\n", call, said, why ? why : "not done");
    exit(EXIT_FAILURE);
}

/* ---- two projectors and two collections */

static void apply(const struct catalogue_message *m)
{
    expect("catalogue_apply", catalogue_apply(LENT(map), m->bytes, m->len));
}

static struct catalogue_stamp next_stamp(void)
{
    static uint64_t n;
    n++;
    struct catalogue_stamp by = {n, 1, n};
    return by;
}

static void begin(void)
{
    static uint8_t starts[CATALOGUE_STARTS];
    uint8_t first[CATALOGUE_LISTS] = {1}, count[CATALOGUE_ANSWER]; /* the one shard of `all` is on node 1 */
    struct catalogue_message m;
    expect("catalogue_empty_map", catalogue_empty_map(LENT(map)));
    for (uint64_t id = 1; id <= NODES; id++) {
        catalogue_make_register(&m, next_stamp(), id, "projector", 1);
        apply(&m);
    }
    expect("catalogue_place", catalogue_place(LENT(map), SHARDS, 1, LENT(lists)));
    catalogue_make_create(&m, next_stamp(), "stars", 3, 0, SHARDS, 1, lists);
    apply(&m);
    catalogue_make_create(&m, next_stamp(), "all", 3, 0, 1, 1, first);
    apply(&m);
    for (uint64_t id = 1; id <= NODES; id++) {
        struct node *n = &nodes[id - 1];
        expect("catalogue_fresh_node", catalogue_fresh_node(LENT(n->header), id, 1));
        expect("catalogue_show_map", catalogue_show_map(LENT(n->header), LENT(map), 2, LENT(starts), LENT(count)));
        expect("catalogue_grant", catalogue_grant(LENT(n->header), 1, 0, 1000));
    }
}

static struct node *node_of(uint32_t shard)
{
    return &nodes[catalogue_u64(lists + 8 * shard) - 1];
}

/* ---- one write, one search */

static void write_star(struct node *n, const char *name, uint32_t shard, const struct catalogue_op *star)
{
    uint8_t key[CATALOGUE_KEY], answer[CATALOGUE_ANSWER];
    struct catalogue_message m;
    catalogue_make_key(key, name, shard);
    catalogue_make_write(&m, key, EPOCH, star);
    expect("catalogue_write",
           catalogue_write(LENT(n->header), LENT(n->stores), LENT(n->refused), NOW, 1, m.bytes, m.len, LENT(answer)));
}

static size_t search(struct node *n, const char *name, uint32_t shard, uint8_t *hits, size_t room)
{
    static const float here[3] = {3, 3, 3};
    uint8_t key[CATALOGUE_KEY], answer[CATALOGUE_ANSWER];
    struct catalogue_message m;
    catalogue_make_key(key, name, shard);
    catalogue_make_search(&m, key, EPOCH, NEAREST, here, 3);
    expect("catalogue_search", catalogue_search(LENT(n->header), LENT(n->stores), LENT(n->refused), NOW, m.bytes, m.len,
                                                hits, room, LENT(answer)));
    return (size_t)catalogue_u64(answer);
}

/* ---- the presenter */

static void put(uint8_t *at, uint64_t number, int size)
{
    for (int i = 0; i < size; i++)
        at[i] = (uint8_t)(number >> 8 * i);
}

/* Every shard's answer, one after the other: the shard, how many, and the hits as the search left them. */
static size_t ask_all(uint8_t *answers, size_t room)
{
    size_t length = 0;
    for (uint32_t s = 0; s < SHARDS; s++) {
        size_t n = search(node_of(s), "stars", s, answers + length + 6, room - length - 6);
        put(answers + length, s, 4);
        put(answers + length + 4, n, 2);
        printf("shard %" PRIu32 " answers with %zu of its stars\n", s, n);
        length += 6 + n * CATALOGUE_HIT;
    }
    return length;
}

int main(void)
{
    static uint8_t answers[CATALOGUE_ANSWERS];
    uint8_t joined[NEAREST * CATALOGUE_HIT], found[NEAREST * CATALOGUE_HIT], answer[CATALOGUE_ANSWER];
    begin();
    for (uint64_t id = 1; id <= STARS; id++) { /* many of them are equally far */
        struct catalogue_op star = {CATALOGUE_UPSERT, id, 3, {(float)(id % 7), (float)(id % 5), (float)(id % 3)}};
        uint32_t shard = catalogue_shard_of(id, SHARDS);
        write_star(node_of(shard), "stars", shard, &star);
        write_star(&nodes[0], "all", 0, &star);
    }
    size_t length = ask_all(answers, sizeof answers);
    expect("catalogue_join", catalogue_join(SHARDS, NEAREST, answers, length, LENT(joined), LENT(answer)));
    size_t n = (size_t)catalogue_u64(answer);
    for (size_t i = 0; i < n; i++)
        printf("%2zu. star %" PRIu64 " at %g, of shard %" PRIu32 "\n", i + 1, catalogue_u64(joined + CATALOGUE_HIT * i),
               (double)catalogue_float_of(catalogue_u32(joined + CATALOGUE_HIT * i + 8)),
               catalogue_shard_of(catalogue_u64(joined + CATALOGUE_HIT * i), SHARDS));
    bool same = search(&nodes[0], "all", 0, found, sizeof found) == n && memcmp(found, joined, n * CATALOGUE_HIT) == 0;
    printf("one search over all stars finds %s\n", same ? "the same" : "OTHERS");
    return same ? EXIT_SUCCESS : EXIT_FAILURE;
}
