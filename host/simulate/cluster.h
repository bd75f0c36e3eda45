/* A random cluster that `simulate` plays: its state, its events, and what is checked of it. */
#ifndef CATALOGUE_SIMULATE_CLUSTER_H
#define CATALOGUE_SIMULATE_CLUSTER_H

#include <stdbool.h>
#include <stdint.h>

#include "catalogue.h"
#include "catalogue_messages.h"

enum { NODES_MOST = 5, SHARDS_MOST = 4, LETTERS_MOST = 48, REPLIES_MOST = 96, PROPOSALS_MOST = 64, WRITES_MOST = 2048 };

/* ---- what is played */

/* What can happen. The rules of a run allow each of these at any time; docs/HOST.md has them as a host's duties. */
enum kind {
    WRITE,
    SEARCH,
    WAIT,
    STEP,
    REQUEST_ARRIVES,
    REQUEST_LOST,
    REQUEST_REPEATS,
    REPLY_ARRIVES,
    REPLY_LOST,
    REPLY_REPEATS,
    PROPOSAL_ARRIVES,
    PROPOSAL_LOST,
    OUTCOME_ARRIVES,
    OUTCOME_LOST,
    TIMEOUT, /* of a proposal or of its outcome, wherever it is */
    MAP_SHOWN,
    GRANT,
    CLOCK,
    PROMOTE,
    RESTART, /* of a node's process: its images are there, what its host kept beside them is gone */
    KINDS
};

/* An event's numbers choose among what there is when it happens. So every part of a list of events is a list of events,
 * and one that finds nothing to choose from does nothing. */
struct event {
    enum kind kind;
    uint32_t first, second, third;
};

/* Hosts that break a rule, to see that it is noticed. */
enum wrong { RIGHT, OUTCOME_TWICE, EARLIER_MAP, EARLIER_IMAGES };

struct setting {
    uint32_t nodes, shards, replication, least, dimension;
    uint8_t metric;
    enum wrong wrong;
};

/* ---- the state */

struct worker {
    bool runs;
    uint64_t epoch;
    uint8_t metric;
    uint64_t latest; /* the number of its latest request: a reply to any other is dropped */
};

struct node {
    uint64_t id, seq;
    uint8_t header[CATALOGUE_HEADER], stores[CATALOGUE_STORES], refused[CATALOGUE_REFUSED];
    uint8_t saved_header[CATALOGUE_HEADER], saved_stores[CATALOGUE_STORES]; /* of the host EARLIER_IMAGES */
    struct worker workers[SHARDS_MOST][NODES_MOST];
};

/* A request on its way, or a reply to it. */
struct letter {
    uint64_t from, to, epoch, number;
    uint32_t shard, step;
    size_t len;
    uint8_t bytes[CATALOGUE_REQUEST];
};

struct reply {
    uint64_t to, from, epoch, number; /* `to` is who asked */
    uint32_t shard, step;
    uint8_t bytes[CATALOGUE_REPLY];
};

struct proposal {
    uint64_t node, peer, epoch, seq;
    uint32_t shard;
    uint8_t command, applied;
    bool decided; /* then this is its outcome, on its way back */
    bool awaited; /* until the node is told an outcome, or that time is up */
};

struct accepted {
    uint64_t node, epoch, offset;
    uint32_t shard;
    struct catalogue_op op;
    enum { OPEN, ACKNOWLEDGED, UNKNOWN } became;
};

struct cluster {
    struct setting setting;
    uint64_t now, last_index, promoter_seq, last_number;
    uint8_t map[CATALOGUE_MAP], last_shown[NODES_MOST][CATALOGUE_MAP];
    uint8_t keys[SHARDS_MOST][CATALOGUE_KEY];
    struct node nodes[NODES_MOST];
    struct letter letters[LETTERS_MOST]; /* the first `letter_count` of `order` are under way, in the order sent */
    uint32_t order[LETTERS_MOST], letter_count;
    struct reply replies[REPLIES_MOST];
    uint32_t reply_count;
    struct proposal proposals[PROPOSALS_MOST];
    uint32_t proposal_count;
    struct accepted writes[WRITES_MOST];
    uint32_t write_count;
};

extern struct cluster cluster;

/* What happened in all runs. */
struct tally {
    uint64_t events, accepted, acknowledged, promotions, shrinks, expands, restarts, searches, lost, repeated,
        overtaking;
};
extern struct tally tally;

/* Whether each event is told in words. */
extern bool telling;

/* ---- playing */

/* A fresh cluster: the collection is created, and every node has been shown that map. */
void begin_cluster(const struct setting *setting);

/* Plays one event. NULL, or what went wrong: an answer that no call should give here, or a search that differs. */
const char *play(const struct event *event);

/* ---- checks (check.c) */

/* Every acknowledged write stands on every node in sync. NULL, or which does not. */
const char *check_acknowledged(void);

/* On every node in sync the table of vectors is its log played from the start. */
const char *check_tables(void);

/* The neighbours that a node answered are those that all its vectors, looked at one by one, give. */
const char *check_hits(const struct node *node, uint32_t shard, uint8_t metric, const float *query, uint8_t count,
                       uint32_t k, const uint8_t *hits, uint64_t hit_count);

/* ---- reading images */

struct node *node_of(uint64_t id);
const uint8_t *map_row(uint32_t shard);
const uint8_t *held_row(const struct node *node, uint32_t shard); /* NULL if the node does not hold it */
bool in_sync(uint32_t shard, uint64_t id);

#endif
