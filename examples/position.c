/* An editor types two stars in hours and degrees, the catalogue keeps them, a search finds one, and its fields are read
 * back from the node's store: a position there and back (paper 02, 2.7).
 *
 * One node holds one shard, so that the host is short; examples/dome.c has a whole dome. Nothing is random. Build with
 * -Iinclude, and link the engine's library.
 */
#include <inttypes.h>
#include <stdio.h>
#include <stdlib.h>

#include "catalogue.h"
#include "catalogue_images.h"
#include "catalogue_messages.h"
#include "catalogue_words.h"

#define LENT(array) (array), sizeof(array)

enum { NODE = 1, INCARNATION = 1, EPOCH = 1, FLOATS = 4, NEAREST = 1 };

static uint8_t map[CATALOGUE_MAP], header[CATALOGUE_HEADER], stores[CATALOGUE_STORES], refused[CATALOGUE_REFUSED];
static uint8_t key[CATALOGUE_KEY];

static void expect(const char *call, uint32_t said)
{
    if (said == CATALOGUE_DONE)
        return;
    const char *why = catalogue_refusal(said);
    fprintf(stderr, "%s answered %" PRIu32 ": %s\n", call, said, why ? why : "not done");
    exit(EXIT_FAILURE);
}

/* ---- a node with one shard, and a lease */

static void apply(const struct catalogue_message *m)
{
    expect("catalogue_apply", catalogue_apply(LENT(map), m->bytes, m->len));
}

static void begin(void)
{
    static uint8_t starts[CATALOGUE_STARTS];
    uint8_t lists[CATALOGUE_LISTS], count[CATALOGUE_ANSWER];
    struct catalogue_stamp first = {1, 1, 1}, second = {2, 1, 2};
    struct catalogue_message m;
    expect("catalogue_empty_map", catalogue_empty_map(LENT(map)));
    catalogue_make_register(&m, first, NODE, "projector", INCARNATION);
    apply(&m);
    expect("catalogue_place", catalogue_place(LENT(map), 1, 1, LENT(lists)));
    catalogue_make_create(&m, second, "stars", FLOATS, 0, 1, 1, lists);
    apply(&m);
    expect("catalogue_fresh_node", catalogue_fresh_node(LENT(header), NODE, INCARNATION));
    expect("catalogue_show_map", catalogue_show_map(LENT(header), LENT(map), INCARNATION, LENT(starts), LENT(count)));
    expect("catalogue_grant", catalogue_grant(LENT(header), INCARNATION, 0, 1000));
    catalogue_make_key(key, "stars", 0);
}

/* ---- what an editor types */

struct star {
    uint64_t id;
    const char *name;
    uint32_t hours, minutes, thousandths, minus, degrees, arcminutes, arcthousandths;
};

static const struct star stars[] = {{1, "Betelgeuse", 5, 55, 10305, 0, 7, 24, 25430},
                                    {2, "Rigel", 5, 14, 32272, 1, 8, 12, 5898}};

/* As a message carries it: a count, and the bits of four floats. */
static void vector_of(const struct star *s, uint8_t vector[CATALOGUE_VECTOR])
{
    uint8_t position[CATALOGUE_POSITION];
    expect("catalogue_position", catalogue_position(s->hours, s->minutes, s->thousandths, s->minus, s->degrees,
                                                    s->arcminutes, s->arcthousandths, LENT(position)));
    int64_t ra = catalogue_i64(position), dec = catalogue_i64(position + 8);
    printf("%s is typed: %" PRId64 " and %" PRId64 " milliarcseconds\n", s->name, ra, dec);
    expect("catalogue_position_vector", catalogue_position_vector(ra, dec, vector, CATALOGUE_VECTOR));
}

static void put_bytes(struct catalogue_message *m, const uint8_t *bytes, size_t n)
{
    for (size_t i = 0; i < n; i++)
        catalogue_put(m, bytes[i], 1);
}

static void write_star(const struct star *s)
{
    uint8_t vector[CATALOGUE_VECTOR], offset[CATALOGUE_ANSWER];
    struct catalogue_message m;
    m.len = 0;
    vector_of(s, vector);
    catalogue_put(&m, 0x23, 1);
    catalogue_put_key(&m, key);
    catalogue_put(&m, EPOCH, 8);
    catalogue_put(&m, CATALOGUE_UPSERT, 1);
    catalogue_put(&m, s->id, 8);
    put_bytes(&m, vector, sizeof vector);
    expect("catalogue_write",
           catalogue_write(LENT(header), LENT(stores), LENT(refused), 1, 1, m.bytes, m.len, LENT(offset)));
    printf("  written at offset %" PRIu64 "\n", catalogue_u64(offset));
}

/* ---- the nearest star, and its fields again */

static uint64_t nearest(const struct star *s)
{
    uint8_t vector[CATALOGUE_VECTOR], hits[NEAREST * CATALOGUE_HIT], count[CATALOGUE_ANSWER];
    struct catalogue_message m;
    m.len = 0;
    vector_of(s, vector);
    catalogue_put(&m, 0x24, 1);
    catalogue_put_key(&m, key);
    catalogue_put(&m, EPOCH, 8);
    catalogue_put(&m, NEAREST, 4);
    put_bytes(&m, vector, sizeof vector);
    expect("catalogue_search",
           catalogue_search(LENT(header), LENT(stores), LENT(refused), 1, m.bytes, m.len, LENT(hits), LENT(count)));
    if (catalogue_u64(count) != NEAREST)
        exit(EXIT_FAILURE);
    printf("  the nearest is star %" PRIu64 ", at distance %g\n", catalogue_u64(hits),
           catalogue_float_of(catalogue_u32(hits + 8)));
    return catalogue_u64(hits);
}

/* A stored entry's floats are its milliarcseconds: a thousand times the first and the second, and so with the others.
 */
static int64_t milliarcseconds(const uint8_t *floats)
{
    return 1000 * (int64_t)catalogue_float_of(catalogue_u32(floats)) +
           (int64_t)catalogue_float_of(catalogue_u32(floats + 4));
}

static void show_stored(uint64_t entry, const struct star *typed)
{
    uint8_t fields[CATALOGUE_FIELDS];
    const uint8_t *floats = stores + CATALOGUE_STORE_PATTERNS + 4 * CATALOGUE_FLOATS_MOST * entry;
    expect("catalogue_position_fields",
           catalogue_position_fields(milliarcseconds(floats), milliarcseconds(floats + 8), LENT(fields)));
    uint32_t f[7];
    for (int i = 0; i < 7; i++)
        f[i] = catalogue_u32(fields + 4 * i);
    printf("  in the store: %" PRIu32 "h %" PRIu32 "m %" PRIu32 ".%03" PRIu32 "s, %c%" PRIu32 " deg %" PRIu32
           "' %" PRIu32 ".%03" PRIu32 "\"\n",
           f[0], f[1], f[2] / 1000, f[2] % 1000, f[3] ? '-' : '+', f[4], f[5], f[6] / 1000, f[6] % 1000);
    if (f[0] != typed->hours || f[1] != typed->minutes || f[2] != typed->thousandths || f[3] != typed->minus ||
        f[4] != typed->degrees || f[5] != typed->arcminutes || f[6] != typed->arcthousandths) {
        fprintf(stderr, "these are not the fields that were typed\n");
        exit(EXIT_FAILURE);
    }
}

int main(void)
{
    begin();
    for (size_t i = 0; i < 2; i++)
        write_star(&stars[i]);
    uint64_t found = nearest(&stars[1]);
    show_stored(found - 1, &stars[found - 1]); /* ids, offsets and entries rise together here */
    uint8_t position[CATALOGUE_POSITION];
    uint32_t said = catalogue_position(1, 2, 3, 1, 0, 0, 0, LENT(position));
    printf("a minus before zero is refused, %" PRIu32 ": %s\n", said, catalogue_refusal(said));
    return said == CATALOGUE_OUT_OF_RANGE ? EXIT_SUCCESS : EXIT_FAILURE;
}
