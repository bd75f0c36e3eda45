/* The map, a node and a held shard, printed from their images for `replay`: see dump.h. Every table stands by rising
 * key in its image, so rows are printed as they stand. */
#include "dump.h"

#include "catalogue.h"
#include "catalogue_images.h"
#include "print.h"

#include <inttypes.h>
#include <stdbool.h>
#include <stdio.h>
#include <string.h>

/* ---- parts */

/* A code that says no or yes, or names one of two things. */
static bool flag_at(const uint8_t *code)
{
    return within(catalogue_u32(code), 1, "a code of an image, above 1") == 1;
}

static size_t name_length(const uint8_t *name)
{
    return within(catalogue_u64(name + CATALOGUE_TEXT_LENGTH), CATALOGUE_NAME_MOST,
                  "a name's length in an image, above 32");
}

static void print_name(const uint8_t *name)
{
    print_text(name + CATALOGUE_TEXT_BYTES, name_length(name));
}

static void print_address(const uint8_t *address)
{
    uint64_t length = catalogue_u64(address + CATALOGUE_TEXT_LENGTH);
    print_text(address + CATALOGUE_TEXT_BYTES,
               within(length, CATALOGUE_ADDRESS_MOST, "an address's length in an image, above 64"));
}

/* A key of an image as on the wire: there the unused bytes of a name are 0, here they may be anything. */
static void print_image_key(const uint8_t *key)
{
    uint8_t wire[CATALOGUE_KEY] = {0};
    size_t length = name_length(key + CATALOGUE_KEY_NAME);
    wire[0] = (uint8_t)length;
    memcpy(wire + 1, key + CATALOGUE_KEY_NAME + CATALOGUE_TEXT_BYTES, length);
    memcpy(wire + 1 + CATALOGUE_NAME_MOST, key + CATALOGUE_KEY_NUMBER, 4);
    print_key(wire);
}

/* Whether a key of an image is a key as on the wire. */
static bool is_key(const uint8_t *key, const uint8_t *wire)
{
    size_t length = name_length(key + CATALOGUE_KEY_NAME);
    return length == wire[0] && memcmp(key + CATALOGUE_KEY_NAME + CATALOGUE_TEXT_BYTES, wire + 1, length) == 0 &&
           memcmp(key + CATALOGUE_KEY_NUMBER, wire + 1 + CATALOGUE_NAME_MOST, 4) == 0;
}

/* A table: how many rows it may have and how long one is, and what prints one. */
struct table {
    size_t most;
    size_t size;
    void (*print)(const uint8_t *row);
    const char *over; /* said if the count is above `most` */
};

static void print_rows(const struct table *table, const uint8_t *count, const uint8_t *rows)
{
    size_t used = within(catalogue_u64(count), table->most, table->over);
    for (size_t i = 0; i < used; i++)
        table->print(rows + i * table->size);
}

/* ---- the map */

static void print_map_node(const uint8_t *row)
{
    fputs("node", stdout);
    print_number(catalogue_u64(row + CATALOGUE_NODE_ID));
    print_number(catalogue_u64(row + CATALOGUE_NODE_INCARNATION));
    fputs(flag_at(row + CATALOGUE_NODE_ALIVE) ? " alive" : " dead", stdout);
    print_address(row + CATALOGUE_NODE_ADDRESS);
    putchar('\n');
}

static void print_collection(const uint8_t *row)
{
    fputs("collection", stdout);
    print_name(row + CATALOGUE_COLLECTION_NAME);
    print_number(catalogue_u32(row + CATALOGUE_COLLECTION_DIMENSION));
    print_number(flag_at(row + CATALOGUE_COLLECTION_METRIC));
    print_number(catalogue_u32(row + CATALOGUE_COLLECTION_SHARDS));
    print_number(catalogue_u32(row + CATALOGUE_COLLECTION_REPLICATION));
    putchar('\n');
}

static void print_replica(const uint8_t *replica)
{
    print_number(catalogue_u64(replica + CATALOGUE_REPLICA_NODE));
    printf(":%" PRIu64, catalogue_u64(replica + CATALOGUE_REPLICA_INCARNATION));
}

static void print_in_sync(const uint8_t *node)
{
    print_number(catalogue_u64(node));
}

static void print_shard(const uint8_t *row)
{
    static const struct table replicas = {CATALOGUE_REPLICAS_MOST, CATALOGUE_REPLICA_SIZE, print_replica,
                                          "replicas of a shard, above 8"};
    static const struct table in_sync = {CATALOGUE_REPLICAS_MOST, 8, print_in_sync, "nodes in sync, above 8"};
    fputs("shard", stdout);
    print_image_key(row + CATALOGUE_SHARD_KEY);
    print_number(catalogue_u64(row + CATALOGUE_SHARD_EPOCH));
    if (flag_at(row + CATALOGUE_SHARD_HAS_PRIMARY))
        print_number(catalogue_u64(row + CATALOGUE_SHARD_PRIMARY));
    else
        print_dash();
    fputs(" replicas", stdout);
    print_rows(&replicas, row + CATALOGUE_SHARD_REPLICA_COUNT, row + CATALOGUE_SHARD_REPLICAS);
    fputs(" sync", stdout);
    print_rows(&in_sync, row + CATALOGUE_SHARD_SYNC_COUNT, row + CATALOGUE_SHARD_SYNC);
    putchar('\n');
}

/* What a remembered rejection names. */
static void print_operands(uint32_t reason, const uint8_t *row)
{
    uint64_t first = catalogue_u64(row + CATALOGUE_SESSION_FIRST);
    uint64_t second = catalogue_u64(row + CATALOGUE_SESSION_SECOND);
    switch (reason) {
    case 3:
    case 4:
    case 12:
    case 15:
        break;
    case 2:
    case 6:
        print_name(row + CATALOGUE_SESSION_KEY + CATALOGUE_KEY_NAME);
        break;
    case 5:
    case 11:
    case 13:
    case 14:
    case 16:
        print_number(first);
        break;
    case 7:
    case 8:
        print_number(first);
        print_number(second);
        break;
    case 9:
        print_image_key(row + CATALOGUE_SESSION_KEY);
        break;
    case 10:
        print_image_key(row + CATALOGUE_SESSION_KEY);
        print_number(first);
        print_number(second);
        break;
    default:
        fail("a remembered outcome with no listed code", reason);
    }
}

static void print_session(const uint8_t *row)
{
    uint32_t outcome = catalogue_u32(row + CATALOGUE_SESSION_OUTCOME);
    fputs("session", stdout);
    print_number(catalogue_u64(row + CATALOGUE_SESSION_CLIENT));
    print_number(catalogue_u64(row + CATALOGUE_SESSION_SEQ));
    if (outcome == 0) {
        fputs(" applied", stdout);
    } else {
        print_number(outcome);
        print_operands(outcome, row);
    }
    putchar('\n');
}

void print_map(const uint8_t *map)
{
    static const struct table nodes = {CATALOGUE_NODES_MOST, CATALOGUE_NODE_SIZE, print_map_node,
                                       "nodes of the map, above 32"};
    static const struct table collections = {CATALOGUE_COLLECTIONS_MOST, CATALOGUE_COLLECTION_SIZE, print_collection,
                                             "collections of the map, above 16"};
    static const struct table shards = {CATALOGUE_SHARDS_MOST, CATALOGUE_SHARD_SIZE, print_shard,
                                        "shards of the map, above 64"};
    static const struct table sessions = {CATALOGUE_SESSIONS_MOST, CATALOGUE_SESSION_SIZE, print_session,
                                          "sessions of the map, above 64"};
    print_line("version", catalogue_u64(map + CATALOGUE_MAP_VERSION));
    print_rows(&nodes, map + CATALOGUE_MAP_NODE_COUNT, map + CATALOGUE_MAP_NODES);
    print_rows(&collections, map + CATALOGUE_MAP_COLLECTION_COUNT, map + CATALOGUE_MAP_COLLECTIONS);
    print_rows(&shards, map + CATALOGUE_MAP_SHARD_COUNT, map + CATALOGUE_MAP_SHARDS);
    print_rows(&sessions, map + CATALOGUE_MAP_SESSION_COUNT, map + CATALOGUE_MAP_SESSIONS);
    puts("end");
}

/* ---- a node */

static size_t held_count(const uint8_t *header)
{
    return within(catalogue_u64(header + CATALOGUE_HEADER_HELD_COUNT), CATALOGUE_HELD_MOST,
                  "shards held by a node, above 8");
}

void print_node(const uint8_t *header, const uint8_t *refused)
{
    fputs("node", stdout);
    print_number(catalogue_u64(header + CATALOGUE_HEADER_ID));
    print_number(catalogue_u64(header + CATALOGUE_HEADER_INCARNATION));
    print_number(catalogue_u64(header + CATALOGUE_HEADER_VERSION));
    if (flag_at(header + CATALOGUE_HEADER_HAS_LEASE))
        print_number(catalogue_u64(header + CATALOGUE_HEADER_EXPIRY));
    else
        print_dash();
    print_number(catalogue_u32(refused));
    print_number(held_count(header));
    putchar('\n');
}

/* ---- a held shard */

/* The row of a key in the header; NULL if it is not held. */
static const uint8_t *held_row(const uint8_t *header, const uint8_t *key)
{
    size_t count = held_count(header);
    for (size_t i = 0; i < count; i++) {
        const uint8_t *row = header + CATALOGUE_HEADER_HELD + i * CATALOGUE_HELD_SIZE;
        if (is_key(row + CATALOGUE_HELD_KEY, key))
            return row;
    }
    return NULL;
}

static void print_role(const uint8_t *row)
{
    if (!flag_at(row + CATALOGUE_HELD_ROLE)) {
        puts("role backup");
        return;
    }
    fputs("role primary", stdout);
    print_number(catalogue_u64(row + CATALOGUE_HELD_PRIMARY_EPOCH));
    print_number(catalogue_u64(row + CATALOGUE_HELD_PRIMARY_END));
    print_number(flag_at(row + CATALOGUE_HELD_SELF));
    putchar('\n');
}

static void print_peer(const uint8_t *peer)
{
    uint32_t flags = catalogue_u32(peer + CATALOGUE_PEER_FLAGS);
    fputs("peer", stdout);
    print_number(catalogue_u64(peer + CATALOGUE_PEER_NODE));
    print_number(catalogue_u64(peer + CATALOGUE_PEER_ACKED));
    print_number((flags & CATALOGUE_FLAG_ALIGNED) != 0);
    if ((flags & CATALOGUE_FLAG_BEHIND) != 0)
        print_number(catalogue_u64(peer + CATALOGUE_PEER_SINCE));
    else
        print_dash();
    print_number((flags & CATALOGUE_FLAG_PROPOSING) != 0);
    print_number((flags & CATALOGUE_FLAG_IN_ACK_SET) != 0);
    putchar('\n');
}

/* The components of the entry at a place below 1,024. */
static void print_components(const uint8_t *store, size_t place)
{
    size_t length =
        within(store[CATALOGUE_STORE_LENGTHS + place], CATALOGUE_FLOATS_MOST, "components of an entry, above 32");
    const uint8_t *patterns = store + CATALOGUE_STORE_PATTERNS + place * CATALOGUE_FLOATS_MOST * 4;
    for (size_t j = 0; j < length; j++)
        print_bits(catalogue_u32(patterns + j * 4));
}

static void print_entry(const uint8_t *store, size_t place)
{
    uint8_t code = store[CATALOGUE_STORE_CODES + place];
    if (code != CATALOGUE_CODE_UPSERT && code != CATALOGUE_CODE_DELETE)
        fail("an operation in a store with no listed code", code);
    fputs("entry", stdout);
    print_number(catalogue_u64(store + CATALOGUE_STORE_EPOCHS + place * 8));
    print_number(catalogue_u64(store + CATALOGUE_STORE_OFFSETS + place * 8));
    fputs(code == CATALOGUE_CODE_UPSERT ? " put" : " delete", stdout);
    print_number(catalogue_u64(store + CATALOGUE_STORE_IDS + place * 8));
    if (code == CATALOGUE_CODE_UPSERT)
        print_components(store, place);
    putchar('\n');
}

/* A row of the vector table names the entry that set the vector, whose components are the vector's. */
static void print_vector(const uint8_t *store, size_t row, size_t entries)
{
    uint64_t offset = catalogue_u64(store + CATALOGUE_STORE_PLACES + row * 8);
    if (offset == 0 || offset > entries)
        fail("a vector in a store whose entry is not in the log", offset);
    fputs("vector", stdout);
    print_number(catalogue_u64(store + CATALOGUE_STORE_KEYS + row * 8));
    print_components(store, (size_t)offset - 1);
    putchar('\n');
}

static size_t entry_count(const uint8_t *row)
{
    return within(catalogue_u64(row + CATALOGUE_HELD_ENTRIES), CATALOGUE_ENTRIES_MOST, "entries of a log, above 1,024");
}

/* The store of the row's slot: its entries, then its vectors. */
static void print_store(const uint8_t *row, const uint8_t *stores)
{
    size_t slot = within(catalogue_u64(row + CATALOGUE_HELD_SLOT), CATALOGUE_SLOTS - 1, "a held shard's slot, above 7");
    size_t stored =
        within(catalogue_u64(row + CATALOGUE_HELD_STORED), CATALOGUE_ENTRIES_MOST, "vectors of a shard, above 1,024");
    size_t entries = entry_count(row);
    const uint8_t *store = stores + slot * CATALOGUE_STORE;
    for (size_t i = 0; i < entries; i++)
        print_entry(store, i);
    for (size_t i = 0; i < stored; i++)
        print_vector(store, i, entries);
}

void print_held(const uint8_t *header, const uint8_t *stores, const uint8_t *key)
{
    static const struct table peers = {CATALOGUE_PEERS_MOST, CATALOGUE_PEER_SIZE, print_peer,
                                       "peers of a held shard, above 32"};
    const uint8_t *row = held_row(header, key);
    if (row == NULL) {
        puts("none");
        return;
    }
    fputs("held", stdout);
    print_number(catalogue_u64(row + CATALOGUE_HELD_EPOCH));
    print_number(flag_at(row + CATALOGUE_HELD_METRIC));
    print_number(entry_count(row)); /* offsets run from 1, so the last one is the count */
    putchar('\n');
    print_role(row);
    print_rows(&peers, row + CATALOGUE_HELD_PEER_COUNT, row + CATALOGUE_HELD_PEERS); /* a backup has none */
    print_store(row, stores);
    puts("end");
}
