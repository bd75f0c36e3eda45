/* The messages that a host or a client makes itself, byte by byte; docs/LAYOUT.md has the same as tables.
 *
 * The engine writes what nodes send each other. Left are the requests to the shard map (01) and what presenters send,
 * Write (23) and Search (24). A writer below never leaves its buffer: what does not fit is left out, and the engine
 * then answers 21.
 */
#ifndef CATALOGUE_MESSAGES_H
#define CATALOGUE_MESSAGES_H

#include <stddef.h>
#include <stdint.h>
#include <string.h>

#include "catalogue.h"

/* commands of a request */
enum {
    CATALOGUE_COMMAND_CREATE = 0x10,
    CATALOGUE_COMMAND_DROP = 0x11,
    CATALOGUE_COMMAND_REGISTER = 0x12,
    CATALOGUE_COMMAND_MARK_DEAD = 0x13,
    CATALOGUE_COMMAND_ADD_REPLICA = 0x14,
    CATALOGUE_COMMAND_REMOVE = 0x15,
    CATALOGUE_COMMAND_PROMOTE = 0x16,
    CATALOGUE_COMMAND_SHRINK = 0x17,
    CATALOGUE_COMMAND_EXPAND = 0x18
};

enum { CATALOGUE_UPSERT = 1, CATALOGUE_DELETE = 2 }; /* codes of an op */

enum {
    CATALOGUE_NAME_ROOM = 32,
    CATALOGUE_ADDRESS_ROOM = 64,
    CATALOGUE_VECTOR_ROOM = 32,
    CATALOGUE_MESSAGE_ROOM = 2048 /* the longest is a Create with 16 lists of 8 nodes: 1,113 */
};

struct catalogue_message {
    size_t len;
    uint8_t bytes[CATALOGUE_MESSAGE_ROOM];
};

/* One operation on the catalogue: a vector for an id, or the id removed, and then without components. */
struct catalogue_op {
    uint8_t code;
    uint64_t id;
    uint8_t count;
    float vector[CATALOGUE_VECTOR_ROOM];
};

/* What stands on every request to the map: indexes rise over all requests, seqs over those of one client. */
struct catalogue_stamp {
    uint64_t index, client, seq;
};

/* ---- parts */

/* A float is sent as its bits; the C float is taken to be the f32 of IEEE 754. */
static inline uint32_t catalogue_bits_of(float x)
{
    uint32_t bits;
    memcpy(&bits, &x, sizeof bits);
    return bits;
}

static inline float catalogue_float_of(uint32_t bits)
{
    float x;
    memcpy(&x, &bits, sizeof x);
    return x;
}

/* A number of so many bytes, the least significant one first. */
static inline void catalogue_put(struct catalogue_message *m, uint64_t number, int size)
{
    for (int i = 0; i < size && m->len < CATALOGUE_MESSAGE_ROOM; i++)
        m->bytes[m->len++] = (uint8_t)(number >> (8 * i));
}

/* A name or an address: its length, its text, and zeros up to its room. */
static inline void catalogue_put_text(struct catalogue_message *m, const char *text, size_t room)
{
    size_t len = strlen(text);
    catalogue_put(m, len, 1);
    for (size_t i = 0; i < room; i++)
        catalogue_put(m, i < len ? (uint8_t)text[i] : 0u, 1);
}

static inline void catalogue_put_key(struct catalogue_message *m, const uint8_t *key)
{
    for (size_t i = 0; i < CATALOGUE_KEY; i++)
        catalogue_put(m, key[i], 1);
}

static inline void catalogue_put_vector(struct catalogue_message *m, const float *vector, uint8_t count)
{
    catalogue_put(m, count, 1);
    for (int i = 0; i < count && i < CATALOGUE_VECTOR_ROOM; i++)
        catalogue_put(m, catalogue_bits_of(vector[i]), 4);
}

static inline void catalogue_put_op(struct catalogue_message *m, const struct catalogue_op *op)
{
    catalogue_put(m, op->code, 1);
    catalogue_put(m, op->id, 8);
    if (op->code == CATALOGUE_UPSERT)
        catalogue_put_vector(m, op->vector, op->count);
}

/* A shard's key, CATALOGUE_KEY bytes: the collection's name and the shard's number. */
static inline void catalogue_make_key(uint8_t *key, const char *collection, uint32_t shard)
{
    struct catalogue_message m;
    m.len = 0;
    catalogue_put_text(&m, collection, CATALOGUE_NAME_ROOM);
    catalogue_put(&m, shard, 4);
    memcpy(key, m.bytes, CATALOGUE_KEY);
}

/* ---- 01: requests to the shard map */

static inline void catalogue_begin_request(struct catalogue_message *m, struct catalogue_stamp by, uint8_t command)
{
    m->len = 0;
    catalogue_put(m, 0x01, 1);
    catalogue_put(m, by.index, 8);
    catalogue_put(m, by.client, 8);
    catalogue_put(m, by.seq, 8);
    catalogue_put(m, command, 1);
}

static inline void catalogue_make_register(struct catalogue_message *m, struct catalogue_stamp by, uint64_t node,
                                           const char *address, uint64_t incarnation)
{
    catalogue_begin_request(m, by, CATALOGUE_COMMAND_REGISTER);
    catalogue_put(m, node, 8);
    catalogue_put_text(m, address, CATALOGUE_ADDRESS_ROOM);
    catalogue_put(m, incarnation, 8);
}

/* A collection: `shards` lists of `replication` nodes, u64 each, one behind the other, as catalogue_place leaves them;
 * at most 16 lists of 8. `metric` is 0 Euclidean, 1 Angular. */
static inline void catalogue_make_create(struct catalogue_message *m, struct catalogue_stamp by, const char *collection,
                                         uint32_t dimension, uint8_t metric, uint32_t shards, uint32_t replication,
                                         const uint8_t *lists)
{
    catalogue_begin_request(m, by, CATALOGUE_COMMAND_CREATE);
    catalogue_put_text(m, collection, CATALOGUE_NAME_ROOM);
    catalogue_put(m, dimension, 4);
    catalogue_put(m, metric, 1);
    catalogue_put(m, shards, 4);
    catalogue_put(m, replication, 4);
    catalogue_put(m, shards, 1);
    for (uint32_t i = 0; i < shards && i < 16; i++) {
        catalogue_put(m, replication, 1);
        for (uint32_t j = 0; j < replication && j < 8; j++)
            catalogue_put(m, catalogue_u64(lists + 8 * (i * replication + j)), 8);
    }
}

static inline void catalogue_make_drop(struct catalogue_message *m, struct catalogue_stamp by, const char *collection)
{
    catalogue_begin_request(m, by, CATALOGUE_COMMAND_DROP);
    catalogue_put_text(m, collection, CATALOGUE_NAME_ROOM);
}

static inline void catalogue_make_mark_dead(struct catalogue_message *m, struct catalogue_stamp by, uint64_t node,
                                            uint64_t incarnation)
{
    catalogue_begin_request(m, by, CATALOGUE_COMMAND_MARK_DEAD);
    catalogue_put(m, node, 8);
    catalogue_put(m, incarnation, 8);
}

static inline void catalogue_make_add_replica(struct catalogue_message *m, struct catalogue_stamp by,
                                              const uint8_t *key, uint64_t node, uint64_t incarnation, uint64_t epoch)
{
    catalogue_begin_request(m, by, CATALOGUE_COMMAND_ADD_REPLICA);
    catalogue_put_key(m, key);
    catalogue_put(m, node, 8);
    catalogue_put(m, incarnation, 8);
    catalogue_put(m, epoch, 8);
}

/* Remove, Promote, Shrink and Expand look alike: which node, of which shard, under which epoch. */
static inline void catalogue_make_change(struct catalogue_message *m, struct catalogue_stamp by, uint8_t command,
                                         const uint8_t *key, uint64_t node, uint64_t epoch)
{
    catalogue_begin_request(m, by, command);
    catalogue_put_key(m, key);
    catalogue_put(m, node, 8);
    catalogue_put(m, epoch, 8);
}

/* ---- 23 and 24: what presenters send */

static inline void catalogue_make_write(struct catalogue_message *m, const uint8_t *key, uint64_t epoch,
                                        const struct catalogue_op *op)
{
    m->len = 0;
    catalogue_put(m, 0x23, 1);
    catalogue_put_key(m, key);
    catalogue_put(m, epoch, 8);
    catalogue_put_op(m, op);
}

static inline void catalogue_make_search(struct catalogue_message *m, const uint8_t *key, uint64_t epoch, uint32_t k,
                                         const float *vector, uint8_t count)
{
    m->len = 0;
    catalogue_put(m, 0x24, 1);
    catalogue_put_key(m, key);
    catalogue_put(m, epoch, 8);
    catalogue_put(m, k, 4);
    catalogue_put_vector(m, vector, count);
}

#endif
