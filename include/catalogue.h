/* The catalogue engine, for hosts in C and C++.
 *
 * The engine keeps no state of its own, and neither allocates, locks, reads a clock nor makes a system call. A host
 * owns the state as byte images, lends them to each call, and sends the messages. catalogue_images.h has the offsets in
 * an image (docs/IMAGES.md explains them), catalogue_messages.h writes the messages that a host makes itself
 * (docs/LAYOUT.md), catalogue_words.h says what a number means. docs/HOST.md has a host's duties in order;
 * examples/dome.c is a whole host to learn from.
 *
 * A call answers a number. CATALOGUE_DONE is 0; other answers are listed at the call, and a refusal is its number
 * (CATALOGUE_UNDECODABLE and so on). A refused call leaves every byte of every buffer as it was, two apart: `answer`
 * gets the own epoch beside 18, and the count of refused client calls rises, which only catalogue_write and
 * catalogue_search do. No bytes, numbers or clock readings make a call fault or run on without end. Images that only
 * these calls have written are never called malformed. In a run of one shard that these calls began and that keeps the
 * rules of a run no acknowledged edit is lost; examples/dome.c points the rules out. What is proved of this, on which
 * assumptions, and of which images and calls the checker has seen it, is in docs/CLAIMS.md and the README.
 *
 * What a host owes:
 *   - each pointer is valid for as many bytes as the length behind it says (never NULL, even with length 0), and no two
 *     buffers of one call overlap;
 *   - one call at a time on one image; calls on different images may run at once;
 *   - CATALOGUE_STACK bytes of stack.
 * Buffers need no alignment. An image or an output that is longer than what it is for is fine; what lies behind stays
 * as it is. Of a message, a request or a reply every byte counts: one too many is 21. An image that is shorter than its
 * size lends no state: 24; so does a `refused` of under four bytes, which counts nothing. An output that is too short
 * for what would stand in it is 23, last of all, and so is an `answer` of under eight bytes; beside 18 such an `answer`
 * gets nothing.
 *
 * A key is the name of its collection, 0 to 32 bytes of 20 to 7E (hexadecimal; anything else is 21), and the number of
 * the shard. Times are numbers of the host's clock, at most 2^62, in one unit throughout. Refusals come in this order:
 * 21 for what does not decode and for times above 2^62, 22 for a vector outside the domain, 24 for a malformed image,
 * then the call's own.
 */
#ifndef CATALOGUE_H
#define CATALOGUE_H

#include <stddef.h>
#include <stdint.h>

#ifdef __cplusplus
extern "C" {
#endif

/* ---- version: MAJOR.MINOR.PATCH (CHANGELOG.md). A later one is the larger number */

#define CATALOGUE_VERSION_MAJOR 0
#define CATALOGUE_VERSION_MINOR 3
#define CATALOGUE_VERSION_PATCH 0
#define CATALOGUE_VERSION 3000u /* MAJOR * 1,000,000 + MINOR * 1,000 + PATCH */

/* The version of the library that is linked. If it is not CATALOGUE_VERSION, the header is another one's. */
uint32_t catalogue_version(void);

/* ---- sizes, in bytes */

#define CATALOGUE_MAP 26536u      /* the image of a shard map */
#define CATALOGUE_HEADER 10288u   /* the image of a node's header */
#define CATALOGUE_STORE 174080u   /* the image of one store */
#define CATALOGUE_STORES 1392640u /* the eight stores of a node, side by side */
#define CATALOGUE_REFUSED 4u      /* the count of refused client calls, u32; four zeros to begin with */
#define CATALOGUE_KEY 37u         /* a shard's key, as on the wire */
#define CATALOGUE_REPLY 9u        /* a reply, 30 to 33 */
#define CATALOGUE_REQUEST 39472u  /* room for any request of a worker */
#define CATALOGUE_ANSWER 8u       /* one number beside an answer, u64 */
#define CATALOGUE_HIT 12u         /* a neighbour: its id, u64, and the bits of its distance, u32 */
#define CATALOGUE_HITS 12288u     /* room for the neighbours of any search */
#define CATALOGUE_START 54u       /* a worker to start: key, peer u64, epoch u64, metric u8 */
#define CATALOGUE_STARTS 13824u   /* room for any workers to start: 8 shards, 32 peers each */
#define CATALOGUE_PEERS 256u      /* room for the peers that a wait names: 32 times u64 */
#define CATALOGUE_LISTS 1024u     /* room for any placement: 16 lists of 8 nodes, u64 each */
#define CATALOGUE_WORDS 108u      /* room for the words of any rejection */
#define CATALOGUE_LOSSES 33280u   /* room for the losses of any collection: 32 rows with a placement each */
#define CATALOGUE_COUNTS 48u      /* how many placements end how: six counts, u64 each */
#define CATALOGUE_POSITION 16u    /* milliarcseconds: right ascension and declination, i64 each */
#define CATALOGUE_FIELDS 28u      /* a position's seven fields, u32 each */
#define CATALOGUE_VECTOR 17u      /* a position's vector as a Write has it: 04, four floats */
#define CATALOGUE_ANSWERS 196704u /* room for any answers to join: 16 of 1,024 neighbours and 6 bytes */
#define CATALOGUE_JOINED 196608u  /* room for any joined neighbours: 16 times 1,024 */
#define CATALOGUE_STACK 196608u   /* stack that a call needs at most; `make fuzz` measures it: under 148,000 */

/* ---- answers */

#define CATALOGUE_DONE 0u
#define CATALOGUE_NONE 1u    /* place, replacement: no node may take it */
#define CATALOGUE_WAITING 1u /* wait: not acknowledged yet */
#define CATALOGUE_PROPOSE 1u /* ack: an Expand is to be proposed for the peer */

/* why the map rejects a command */
#define CATALOGUE_REJECTED_OLDER 1u             /* older than this client's last one, which gets its old answer again */
#define CATALOGUE_REJECTED_EXISTS 2u            /* the collection exists */
#define CATALOGUE_REJECTED_ZERO 3u              /* a zero among the collection's numbers */
#define CATALOGUE_REJECTED_PLACEMENT 4u         /* the lists do not match the collection's numbers */
#define CATALOGUE_REJECTED_NOT_ALIVE 5u         /* a node is not alive */
#define CATALOGUE_REJECTED_NO_COLLECTION 6u     /* no such collection */
#define CATALOGUE_REJECTED_KNOWN_INCARNATION 7u /* the node is known under this incarnation or a later one */
#define CATALOGUE_REJECTED_OTHER_INCARNATION 8u /* the node is unknown, or known under another incarnation */
#define CATALOGUE_REJECTED_NO_SHARD 9u          /* no such shard */
#define CATALOGUE_REJECTED_OTHER_EPOCH 10u      /* the shard has another epoch */
#define CATALOGUE_REJECTED_ALREADY_HELD 11u     /* the node holds the shard already */
#define CATALOGUE_REJECTED_REMOVES_PRIMARY 12u  /* the primary cannot be removed */
#define CATALOGUE_REJECTED_NOT_HELD 13u         /* the node does not hold the shard */
#define CATALOGUE_REJECTED_NOT_IN_SYNC 14u      /* the node is not in sync */
#define CATALOGUE_REJECTED_SHRINKS_PRIMARY 15u  /* the primary stays in sync */
#define CATALOGUE_REJECTED_ALREADY_IN_SYNC 16u  /* the node is in sync already */

/* refusals */
#define CATALOGUE_UNKNOWN_SHARD 17u   /* the node does not hold the shard */
#define CATALOGUE_NOT_PRIMARY 18u     /* another epoch, or not the primary; the shard's own epoch stands beside */
#define CATALOGUE_NO_LEASE 19u        /* no lease holds */
#define CATALOGUE_TOO_FEW_IN_SYNC 20u /* fewer in sync than asked for */
#define CATALOGUE_UNDECODABLE 21u     /* bytes that are no such message, or a time above 2^62 */
#define CATALOGUE_OUTSIDE_DOMAIN 22u  /* a component that is not finite or above 2^32 in magnitude */
#define CATALOGUE_NO_ROOM 23u         /* a limit is reached, or an output is too short */
#define CATALOGUE_MALFORMED 24u       /* an image is too short, or no state that the engine makes */
#define CATALOGUE_LAST_EPOCH 25u      /* the epoch cannot rise */
#define CATALOGUE_NO_WORKER 26u       /* an ack for a peer without a worker */
#define CATALOGUE_SHORT_TEXT 27u      /* a buffer shorter than the words of a rejection */
#define CATALOGUE_OUT_OF_ORDER 28u    /* answers to join that are out of order, repeat an id or do not rise */
#define CATALOGUE_WRONG_SHARD 29u     /* an answer to join names an id that is not of its shard */
#define CATALOGUE_OUT_OF_RANGE 30u    /* a position's field, or its milliarcseconds, out of range */
#define CATALOGUE_NO_THOUSANDTH 31u   /* a right ascension with no whole thousandth of a second */
#define CATALOGUE_TOO_MANY 35u        /* more placements than 64 bits count */
#define CATALOGUE_TOO_WIDE 36u        /* more than 4 ids, an id given twice, above 16 lists or 8 nodes */

/* ---- numbers in images and outputs, least significant byte first */

static inline uint64_t catalogue_u64(const uint8_t *p)
{
    uint64_t n = 0;
    for (int i = 7; i >= 0; i--)
        n = n << 8 | p[i];
    return n;
}

static inline uint32_t catalogue_u32(const uint8_t *p)
{
    return (uint32_t)p[0] | (uint32_t)p[1] << 8 | (uint32_t)p[2] << 16 | (uint32_t)p[3] << 24;
}

static inline int64_t catalogue_i64(const uint8_t *p)
{
    uint64_t n = catalogue_u64(p);
    return n >> 63 ? -(int64_t)~n - 1 : (int64_t)n;
}

/* ---- making state */

/* An empty map. 24 a short buffer. */
uint32_t catalogue_empty_map(uint8_t *map, size_t map_len);

/* A node with nothing: no shard, no lease, no map known. Its stores need no filling. 24 a short buffer. */
uint32_t catalogue_fresh_node(uint8_t *header, size_t header_len, uint64_t id, uint64_t incarnation);

/* ---- the shard map */

/* Applies a request (01). 0 applied; 1 to 16 rejected for that reason (CATALOGUE_REJECTED_..), which the map remembers
 * of the client (1 it does not); 21, 23, 24, 25 refused. The request's index stands at its bytes 1 to 8, the map's
 * version at the image's bytes 0 to 7. */
uint32_t catalogue_apply(uint8_t *map, size_t map_len, const uint8_t *request, size_t request_len);

/* The same, with the words of a rejection: ASCII but for the bytes of a name, not ended by a 0. 0 to 16: the text
 * stands at the start of `text`, its length in `answer` (u64, 0 for an applied command), and what lies behind the text
 * stays; the map is as catalogue_apply leaves it. On an equal seq they are the words of the old command. 27 a `text`
 * shorter than the words, after every other answer of the command: nothing is remembered, and the request sent again
 * with room gets what it would have got. CATALOGUE_WORDS bytes are never too few. Last, 23 an `answer` under 8 bytes.
 * With 21 to 27 no byte of the three changes. */
uint32_t catalogue_apply_words(uint8_t *map, size_t map_len, const uint8_t *request, size_t request_len, uint8_t *text,
                               size_t text_len, uint8_t *answer, size_t answer_len);

/* Where the replicas of new shards go. 0: `shards` lists of `replication` nodes stand in `lists`, u64 each, one behind
 * the other; 1 none; 23, 24. */
uint32_t catalogue_place(const uint8_t *map, size_t map_len, uint32_t shards, uint32_t replication, uint8_t *lists,
                         size_t lists_len);

/* Which node takes a replica of the shard next. 0: it stands in `answer`; 1 none; 21, 23, 24. */
uint32_t catalogue_replacement(const uint8_t *map, size_t map_len, const uint8_t *name, size_t name_len, uint32_t shard,
                               uint8_t *answer, size_t answer_len);

/* Which single live node, marked dead, would change the answer of catalogue_place for the collection of that name,
 * asked with the collection's own shards and replication. 0: `answer` tells how many rows stand in `list`, by rising
 * node; none where the map has no such collection. A row is the node, u64, and a code, u64: CATALOGUE_NONE where place
 * then answers none, 0 where its lists follow as catalogue_place leaves them. How many lists, and how many nodes in
 * each, the row does not tell: they are the collection's own numbers, to be read from the map. 21 the name, 24; 23 a
 * short `list` or `answer`, last. */
uint32_t catalogue_place_losses(const uint8_t *map, size_t map_len, const uint8_t *name, size_t name_len, uint8_t *list,
                                size_t list_len, uint8_t *answer, size_t answer_len);

/* Among all placements of at most `lists` lists (up to 16), each of at most `nodes` nodes (up to 8) of the given ids
 * (up to 4, u64 each, none twice), how many Create would accept for that name and spec, and how many would end in 2, 3,
 * 4, 5 and 23. The empty placement, empty lists, and a node more than once in a list are among them. 0: six counts
 * stand in `counts` in that order, CATALOGUE_COUNTS bytes; they add up to all there are. A count of 23 is of
 * placements; as the number that the call answers, 23 is a short `counts`. 21 a name that no message carries or bytes
 * that are no whole ids, 24, 36, 35, 23. The map is only read. */
uint32_t catalogue_count_placements(const uint8_t *map, size_t map_len, const uint8_t *name, size_t name_len,
                                    uint32_t dimension, uint32_t shards, uint32_t replication, const uint8_t *ids,
                                    size_t ids_len, uint32_t lists, uint32_t nodes, uint8_t *counts, size_t counts_len);

/* Which shard of a collection of so many holds an id: 0 to shards - 1, and 0 of none. Writes of the id go to that shard
 * alone; a search asks them all. Every number is an answer, none a refusal. */
uint32_t catalogue_shard_of(uint64_t id, uint32_t shards);

/* ---- the node: what the map and the clock bring */

/* The map is shown to the node. `fresh` is the incarnation it starts over under if the map lists it dead. 0: `answer`
 * tells how many workers to start, `starts` each of them by key and then peer (in place of one that still runs for
 * them); 23, 24. */
uint32_t catalogue_show_map(uint8_t *header, size_t header_len, const uint8_t *map, size_t map_len, uint64_t fresh,
                            uint8_t *starts, size_t starts_len, uint8_t *answer, size_t answer_len);

/* A lease grant for an incarnation, asked for at the time `sent`. 0; 21, 24. */
uint32_t catalogue_grant(uint8_t *header, size_t header_len, uint64_t incarnation, uint64_t sent, uint64_t lease);

/* ---- the node: clients */

/* Write (23). 0 accepted, its offset in `answer`: it is acknowledged once a wait for it says done. 17; 18, the own
 * epoch in `answer`; 19, 20, 21, 22, 23, 24. A refusal of any number adds one to the count in `refused`, up to the
 * largest u32. */
uint32_t catalogue_write(uint8_t *header, size_t header_len, uint8_t *stores, size_t stores_len, uint8_t *refused,
                         size_t refused_len, uint64_t now, uint64_t least_in_sync, const uint8_t *message,
                         size_t message_len, uint8_t *answer, size_t answer_len);

/* Search (24). 0: `answer` tells how many neighbours stand in `hits`, nearest first; 23 if they do not fit. 17; 18, the
 * own epoch in `answer`; 19, 21, 22, 24. Counts refusals as catalogue_write does, and changes nothing of the node. */
uint32_t catalogue_search(const uint8_t *header, size_t header_len, const uint8_t *stores, size_t stores_len,
                          uint8_t *refused, size_t refused_len, uint64_t now, const uint8_t *message,
                          size_t message_len, uint8_t *hits, size_t hits_len, uint8_t *answer, size_t answer_len);

/* Whether an accepted write is acknowledged. 0 done, 1 waiting; either way `answer` tells for how many peers a Shrink
 * is to be proposed, and they stand in `peers`, u64 each, rising. 17; 18, the own epoch in `answer`; 21, 23, 24. A wait
 * that asks for a Shrink which the map rejects with 14 does so for ever: an Expand of that peer was lost. Promote again
 * (docs/HOST.md, 'Two traps'). */
uint32_t catalogue_wait(uint8_t *header, size_t header_len, const uint8_t *name, size_t name_len, uint32_t shard,
                        uint64_t epoch, uint64_t offset, uint64_t now, uint64_t ack_timeout, uint8_t *peers,
                        size_t peers_len, uint8_t *answer, size_t answer_len);

/* ---- the node: what a primary sends it */

/* Replicate (20), NewEpoch (21), CopyShard (22). 0: the reply (30 to 33) stands in `reply` and goes back; 21, 22, 23,
 * 24, and then nothing goes back. Between two nodes requests and replies may be lost, come twice and overtake one
 * another: an alignment at the replica's own epoch, which may be late, cuts nothing and answers its last offset. */
uint32_t catalogue_replicate(uint8_t *header, size_t header_len, uint8_t *stores, size_t stores_len,
                             const uint8_t *message, size_t message_len, uint8_t *reply, size_t reply_len);
uint32_t catalogue_new_epoch(uint8_t *header, size_t header_len, uint8_t *stores, size_t stores_len,
                             const uint8_t *message, size_t message_len, uint8_t *reply, size_t reply_len);
uint32_t catalogue_copy(uint8_t *header, size_t header_len, uint8_t *stores, size_t stores_len, const uint8_t *message,
                        size_t message_len, uint8_t *reply, size_t reply_len);

/* ---- the node: its workers */

#define CATALOGUE_STEP_WAIT 0u
#define CATALOGUE_STEP_STOP 1u
#define CATALOGUE_STEP_ALIGN 2u
#define CATALOGUE_STEP_REPLICATE 3u
#define CATALOGUE_STEP_COPY 4u

/* The step of the worker for a peer, as it was started: one of the five numbers above. Of the last three the request
 * stands in `request` and its length in `answer`, which is 0 beside wait and stop. One entry of the primary's epoch
 * goes as Replicate; one of another epoch, which keeps it that way, and several go as CopyShard. 21 the name or the
 * metric; 23, 24. */
uint32_t catalogue_step(const uint8_t *header, size_t header_len, const uint8_t *stores, size_t stores_len,
                        const uint8_t *name, size_t name_len, uint32_t shard, uint64_t epoch, uint64_t peer,
                        uint8_t metric, uint8_t *request, size_t request_len, uint8_t *answer, size_t answer_len);

/* A peer's reply to the request of a step, CATALOGUE_STEP_ALIGN, .._REPLICATE or .._COPY. 0 noted; 1 an Expand is to be
 * proposed for the peer; 21, 24, 26. */
uint32_t catalogue_ack(uint8_t *header, size_t header_len, const uint8_t *name, size_t name_len, uint32_t shard,
                       uint64_t epoch, uint64_t peer, uint8_t step, const uint8_t *reply, size_t reply_len);

/* How a proposal of this node ended: `command` 0x17 Shrink, 0x18 Expand, as in the request; `applied` 1 if the map
 * applied it, 0 if it was rejected, refused or timed out. 0; 21, 24. Told once or never: a timeout is an outcome, and
 * none follows it. A peer whose Shrink is applied after it has caught up is asked back only when it has a further
 * entry; one whose Expand is told as 0 is not proposed again under that epoch. If writes stop for it, promote again
 * (docs/HOST.md, 'Two traps'). */
uint32_t catalogue_outcome(uint8_t *header, size_t header_len, const uint8_t *name, size_t name_len, uint32_t shard,
                           uint64_t epoch, uint64_t peer, uint8_t command, uint8_t applied);

/* ---- positions in hours and degrees. No state, and no bytes come in: 21, 22 and 24 do not arise */

/* The milliarcseconds of what an editor types: right ascension as hours (0 to 23), minutes (0 to 59) and thousandths of
 * seconds (0 to 59,999); declination as sign (`minus` 0 or 1), degrees (0 to 90, and nothing beyond 90), arcminutes and
 * thousandths of arcseconds. A minus before zero is out of range. 0: CATALOGUE_POSITION bytes stand in `position`; 30,
 * 23. */
uint32_t catalogue_position(uint32_t hours, uint32_t minutes, uint32_t thousandths, uint32_t minus, uint32_t degrees,
                            uint32_t arcminutes, uint32_t arcthousandths, uint8_t *position, size_t position_len);

/* And back. 0: CATALOGUE_FIELDS bytes stand in `fields`, in the order above; zero has a plus. 30 a right ascension
 * below 0 or above 1,295,999,985 or a declination beyond 324,000,000 either way; then 31 a right ascension that is no
 * multiple of 15; 23. */
uint32_t catalogue_position_fields(int64_t ra, int64_t dec, uint8_t *fields, size_t fields_len);

/* The vector of a position, for a Write or a Search. 0: CATALOGUE_VECTOR bytes stand in `vector`: right ascension's
 * whole arcseconds and left-over thousandths, then declination's, which both carry its sign, all exact; a zero is plus
 * zero. 30 as above; 23. A search measures these floats as they are: nothing wraps around at 24 hours, and a thousandth
 * counts as much as an arcsecond. */
uint32_t catalogue_position_vector(int64_t ra, int64_t dec, uint8_t *vector, size_t vector_len);

/* ---- searching a whole collection. No state and no vector: 22 and 24 do not arise */

/* The answers of a collection's shards to one query, joined into its first k neighbours. `answers` holds at most 16,
 * one after the other by rising shard number: the shard, u32, how many neighbours, u16 up to 1,024, and those as
 * catalogue_search left them in `hits`. `shards` is the collection's number of shards. Each shard is asked for the same
 * k; if all of them answered, this is one search over all vectors together. 0: `answer` tells how many neighbours stand
 * in `hits`, nearest first; there may be 16,384. 21 bytes that are no whole answers; 28 a 17th answer, shard numbers
 * that do not rise, an answer that is out of order or names an id twice; 29 an id of another shard; 23. */
uint32_t catalogue_join(uint32_t shards, uint32_t k, const uint8_t *answers, size_t answers_len, uint8_t *hits,
                        size_t hits_len, uint8_t *answer, size_t answer_len);

#ifdef __cplusplus
}
#endif

#endif
