/* A plain C decoder of the message layout (paper 01, 'Bytes on the wire'): the benchmark's yardstick. It makes the same
 * tests as the engine's reader and fills the same numbers and places into one struct. */
#ifndef PLAIN_H
#define PLAIN_H

#include <stddef.h>
#include <stdint.h>

struct part {
    size_t at, len;
};

struct key {
    struct part name;
    uint32_t shard;
};

struct op {
    uint8_t code; /* 1 Upsert, 2 Delete */
    uint64_t id;
    struct part vector;
};

struct command {
    uint8_t code; /* 10 to 19, hexadecimal */
    struct part name, list; /* list: a placement, or a Bench's bytes */
    struct key key;
    uint32_t dimension, shards, replication;
    uint8_t metric;
    uint64_t node, incarnation, epoch;
};

struct message {
    uint8_t code; /* 0: the bytes are no message */
    uint8_t metric;
    struct key key;
    uint64_t index, client, seq; /* 01 */
    uint64_t epoch, number;      /* number: offset, end or a reply's */
    uint32_t k;
    struct part items; /* table, entries or vector */
    struct op op;
    struct command command;
};

void plain_read(struct message *m, const uint8_t *s, size_t n);

/* All of a message in one number, as crate bench_wire makes it; 0 where the bytes are none. */
uint64_t plain_decode(const uint8_t *s, size_t n);

#endif
