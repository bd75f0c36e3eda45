/* The least that a host can be: one node, one write, one search. examples/dome.c shows what several nodes need. */
#include <stdio.h>
#include <stdlib.h>

#include "catalogue.h"
#include "catalogue_messages.h"
#include "catalogue_words.h"

#define LENT(array) (array), sizeof(array)
#define STARS (const uint8_t *)"stars", 5, 0 /* the key of the one shard: its collection's name, and its number */

/* The state is the host's: a map, and a node's header, stores and count of refused calls. */
static uint8_t map[CATALOGUE_MAP], header[CATALOGUE_HEADER], stores[CATALOGUE_STORES], refused[CATALOGUE_REFUSED];

static void done(const char *call, uint32_t said)
{
    const char *why = catalogue_refusal(said);
    if (said == CATALOGUE_DONE)
        return;
    fprintf(stderr, "%s answered %u%s%s\n", call, (unsigned)said, why ? ": " : "", why ? why : "");
    exit(EXIT_FAILURE);
}

int main(void)
{
    static uint8_t starts[CATALOGUE_STARTS];
    uint8_t key[CATALOGUE_KEY], lists[CATALOGUE_LISTS], peers[CATALOGUE_PEERS], answer[CATALOGUE_ANSWER];
    uint8_t hits[4 * CATALOGUE_HIT];
    struct catalogue_message m;
    struct catalogue_stamp first = {1, 1, 1}, second = {2, 1, 2};
    struct catalogue_op vega = {CATALOGUE_UPSERT, 7, 3, {1, 2, 2}};
    const float here[] = {0, 0, 0};

    done("empty_map", catalogue_empty_map(LENT(map)));
    catalogue_make_register(&m, first, 1, "projector-1", 1);
    done("apply", catalogue_apply(LENT(map), m.bytes, m.len));
    done("place", catalogue_place(LENT(map), 1, 1, LENT(lists)));
    catalogue_make_create(&m, second, "stars", 3, 0, 1, 1, lists);
    done("apply", catalogue_apply(LENT(map), m.bytes, m.len));

    done("fresh_node", catalogue_fresh_node(LENT(header), 1, 1));
    done("show_map", catalogue_show_map(LENT(header), LENT(map), 2, LENT(starts), LENT(answer)));
    done("grant", catalogue_grant(LENT(header), 1, 0, 1000));

    catalogue_make_key(key, "stars", catalogue_shard_of(vega.id, 1));
    catalogue_make_write(&m, key, 1, &vega);
    done("write", catalogue_write(LENT(header), LENT(stores), LENT(refused), 10, 1, m.bytes, m.len, LENT(answer)));
    uint64_t offset = catalogue_u64(answer);
    done("wait", catalogue_wait(LENT(header), STARS, 1, offset, 10, 100, LENT(peers), LENT(answer)));

    catalogue_make_search(&m, key, 1, 4, here, 3);
    done("search",
         catalogue_search(LENT(header), LENT(stores), LENT(refused), 11, m.bytes, m.len, LENT(hits), LENT(answer)));
    printf("write %u is acknowledged; nearest is %u at %g\n", (unsigned)offset, (unsigned)catalogue_u64(hits),
           (double)catalogue_float_of(catalogue_u32(hits + 8)));
    return 0;
}
