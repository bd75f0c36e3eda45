/* The events of a random cluster: what a host does at each, in the engine's calls. docs/HOST.md has the same as duties.
 */
#include "cluster.h"

#include <inttypes.h>
#include <stdarg.h>
#include <stdio.h>
#include <stdlib.h>
#include <string.h>

#include "catalogue_images.h"
#include "catalogue_words.h"

enum { INCARNATION = 1, LEASE = 200, ACK_TIMEOUT = 20, CLOCK_MOST = 15, IDS = 12, K_MOST = 8 };

/* Client numbers all differ: who promotes, and each node. */
enum { PROMOTER = 1, NODE_CLIENT = 100 };

struct cluster cluster;
struct tally tally;
bool telling;

#define LENT(array) (array), sizeof(array)
#define NAMED(key) (key) + 1, (key)[0], catalogue_u32((key) + 33)

/* ---- words */

static void tell(const char *format, ...)
{
    va_list words;
    if (!telling)
        return;
    printf("    ");
    va_start(words, format);
    vprintf(format, words);
    va_end(words);
    putchar('\n');
}

static const char *word_of(uint8_t command)
{
    return command == CATALOGUE_COMMAND_SHRINK ? "Shrink" : "Expand";
}

static const char *step_word(uint32_t step)
{
    static const char *const words[] = {"Wait", "Stop", "NewEpoch", "Replicate", "CopyShard"};
    return words[step];
}

/* What is wrong with an answer that no call should give here. */
static const char *unwanted(const char *call, uint32_t number)
{
    static char said[120];
    const char *why = catalogue_refusal(number);
    snprintf(said, sizeof said, "%s answered %" PRIu32 "%s%s", call, number, why ? ": " : "", why ? why : "");
    return said;
}

/* ---- reading images */

struct node *node_of(uint64_t id)
{
    return &cluster.nodes[id - 1];
}

/* The one collection's shards stand in the order of their numbers. */
const uint8_t *map_row(uint32_t shard)
{
    return cluster.map + CATALOGUE_MAP_SHARDS + shard * CATALOGUE_SHARD_SIZE;
}

static uint64_t map_epoch(uint32_t shard)
{
    return catalogue_u64(map_row(shard) + CATALOGUE_SHARD_EPOCH);
}

bool in_sync(uint32_t shard, uint64_t id)
{
    const uint8_t *row = map_row(shard);
    for (uint64_t i = 0; i < catalogue_u64(row + CATALOGUE_SHARD_SYNC_COUNT); i++)
        if (catalogue_u64(row + CATALOGUE_SHARD_SYNC + 8 * i) == id)
            return true;
    return false;
}

const uint8_t *held_row(const struct node *node, uint32_t shard)
{
    for (uint64_t i = 0; i < catalogue_u64(node->header + CATALOGUE_HEADER_HELD_COUNT); i++) {
        const uint8_t *row = node->header + CATALOGUE_HEADER_HELD + i * CATALOGUE_HELD_SIZE;
        if (catalogue_u32(row + CATALOGUE_KEY_NUMBER) == shard)
            return row;
    }
    return NULL;
}

/* The epoch under which a node believes that it is primary; else the map's. */
static uint64_t epoch_at(const struct node *node, uint32_t shard)
{
    const uint8_t *row = held_row(node, shard);
    if (row != NULL && catalogue_u32(row + CATALOGUE_HELD_ROLE) == 1)
        return catalogue_u64(row + CATALOGUE_HELD_PRIMARY_EPOCH);
    return map_epoch(shard);
}

/* ---- what an event's numbers choose */

static uint32_t choose_shard(uint32_t number)
{
    return number % cluster.setting.shards;
}

static struct node *choose_node(uint32_t number)
{
    return &cluster.nodes[number % cluster.setting.nodes];
}

/* Three times in four the primary of the map, else any node: it may be deposed and not know it. */
static struct node *choose_served(uint32_t shard, uint32_t number)
{
    if (number % 4 == 0)
        return choose_node(number / 4);
    return node_of(catalogue_u64(map_row(shard) + CATALOGUE_SHARD_PRIMARY));
}

static uint32_t mixed(uint32_t number, uint32_t salt)
{
    uint64_t z = (uint64_t)number * 0x9E3779B97F4A7C15u + salt * 0xBF58476D1CE4E5B9u;
    z = (z ^ z >> 31) * 0x94D049BB133111EBu;
    return (uint32_t)(z >> 32);
}

/* Small quarters, so that distances are often equal; now and then large numbers, another length. */
static uint8_t choose_vector(float *vector, uint32_t number)
{
    uint32_t count = number % 8 == 0 ? 1 + number / 8 % 6 : cluster.setting.dimension;
    float scale = number % 16 == 5 ? 3e8f : 0.25f;
    for (uint32_t i = 0; i < count; i++)
        vector[i] = scale * (float)((int32_t)(mixed(number, i) % 17) - 8);
    return (uint8_t)count;
}

static void choose_op(struct catalogue_op *op, uint32_t number)
{
    memset(op, 0, sizeof *op);
    op->code = mixed(number, 77) % 5 == 0 ? CATALOGUE_DELETE : CATALOGUE_UPSERT;
    op->id = 1 + mixed(number, 78) % IDS;
    if (op->code == CATALOGUE_UPSERT)
        op->count = choose_vector(op->vector, number);
}

/* ---- the map, and the workers that it starts */

static struct catalogue_stamp stamp_of(uint64_t client, uint64_t seq)
{
    struct catalogue_stamp by = {++cluster.last_index, client, seq};
    return by;
}

static uint32_t apply(const struct catalogue_message *m)
{
    return catalogue_apply(LENT(cluster.map), m->bytes, m->len);
}

static void start_worker(struct node *node, uint32_t shard, uint64_t peer, uint64_t epoch, uint8_t metric)
{
    struct worker *w = &node->workers[shard][peer - 1];
    w->runs = true;
    w->epoch = epoch;
    w->metric = metric;
    w->latest = 0;
}

static const char *show_map(struct node *node, const uint8_t *map)
{
    static uint8_t starts[CATALOGUE_STARTS];
    uint8_t count[CATALOGUE_ANSWER];
    uint32_t said =
        catalogue_show_map(LENT(node->header), map, CATALOGUE_MAP, INCARNATION + 1, LENT(starts), LENT(count));
    if (said != CATALOGUE_DONE)
        return unwanted("catalogue_show_map", said);
    for (uint64_t i = 0; i < catalogue_u64(count); i++) {
        const uint8_t *row = starts + i * CATALOGUE_START;
        start_worker(node, catalogue_u32(row + 33), catalogue_u64(row + CATALOGUE_KEY),
                     catalogue_u64(row + CATALOGUE_KEY + 8), row[CATALOGUE_KEY + 16]);
    }
    tell("node %" PRIu64 " is shown the map of version %" PRIu64 ", and starts %" PRIu64 " workers", node->id,
         catalogue_u64(map), catalogue_u64(count));
    return NULL;
}

/* The map of that moment. The host EARLIER_MAP keeps it, and shows it again when a worker of the node has stopped. */
static const char *map_shown(const struct event *e)
{
    struct node *node = choose_node(e->first);
    memcpy(cluster.last_shown[node->id - 1], cluster.map, sizeof cluster.map);
    return show_map(node, cluster.map);
}

static const char *promote(const struct event *e)
{
    uint32_t shard = choose_shard(e->first);
    const struct node *node = choose_node(e->second);
    struct catalogue_message m;
    catalogue_make_change(&m, stamp_of(PROMOTER, ++cluster.promoter_seq), CATALOGUE_COMMAND_PROMOTE,
                          cluster.keys[shard], node->id, map_epoch(shard));
    uint32_t said = apply(&m);
    if (said != CATALOGUE_DONE && said != CATALOGUE_REJECTED_NOT_IN_SYNC)
        return unwanted("catalogue_apply", said);
    tally.promotions += said == CATALOGUE_DONE;
    tell("Promote node %" PRIu64 " for shard %" PRIu32 ": %s", node->id, shard,
         said == CATALOGUE_DONE ? "applied" : catalogue_rejection(said));
    return NULL;
}

/* ---- clients */

static const char *client_writes(const struct event *e)
{
    uint32_t shard = choose_shard(e->first);
    struct node *node = choose_served(shard, e->third);
    struct accepted w = {node->id, epoch_at(node, shard), 0, shard, {0, 0, 0, {0}}, OPEN};
    struct catalogue_message m;
    uint8_t answer[CATALOGUE_ANSWER];
    if (cluster.write_count == WRITES_MOST)
        return NULL;
    choose_op(&w.op, e->second);
    catalogue_make_write(&m, cluster.keys[shard], w.epoch, &w.op);
    uint32_t said = catalogue_write(LENT(node->header), LENT(node->stores), LENT(node->refused), cluster.now,
                                    cluster.setting.least, m.bytes, m.len, LENT(answer));
    if (said == CATALOGUE_UNDECODABLE || said == CATALOGUE_OUTSIDE_DOMAIN || said >= CATALOGUE_MALFORMED)
        return unwanted("catalogue_write", said);
    if (said != CATALOGUE_DONE) {
        tell("node %" PRIu64 " refuses a write of shard %" PRIu32 ": %s", node->id, shard, catalogue_refusal(said));
        return NULL;
    }
    w.offset = catalogue_u64(answer);
    cluster.writes[cluster.write_count++] = w;
    tally.accepted++;
    tell("node %" PRIu64 " takes write %" PRIu64 " of shard %" PRIu32 " under epoch %" PRIu64, node->id, w.offset,
         shard, w.epoch);
    return NULL;
}

static const char *client_searches(const struct event *e)
{
    static uint8_t hits[K_MOST * CATALOGUE_HIT];
    uint32_t shard = choose_shard(e->first), k = e->third / 4 % (K_MOST + 1);
    struct node *node = choose_served(shard, e->third);
    struct catalogue_message m;
    float query[CATALOGUE_VECTOR_ROOM];
    uint8_t count = choose_vector(query, e->second), answer[CATALOGUE_ANSWER];
    catalogue_make_search(&m, cluster.keys[shard], epoch_at(node, shard), k, query, count);
    uint32_t said = catalogue_search(LENT(node->header), LENT(node->stores), LENT(node->refused), cluster.now, m.bytes,
                                     m.len, LENT(hits), LENT(answer));
    if (said > CATALOGUE_NO_LEASE)
        return unwanted("catalogue_search", said);
    if (said != CATALOGUE_DONE)
        return NULL;
    tally.searches++;
    tell("node %" PRIu64 " finds %" PRIu64 " in shard %" PRIu32, node->id, catalogue_u64(answer), shard);
    return check_hits(node, shard, cluster.setting.metric, query, count, k, hits, catalogue_u64(answer));
}

/* ---- proposals */

static void propose(struct node *node, uint8_t command, uint32_t shard, uint64_t peer, uint64_t epoch)
{
    struct proposal p = {node->id, peer, epoch, ++node->seq, shard, command, 0, false, true};
    tell("node %" PRIu64 " proposes: %s node %" PRIu64 " of shard %" PRIu32, node->id, word_of(command), peer, shard);
    if (cluster.proposal_count < PROPOSALS_MOST)
        cluster.proposals[cluster.proposal_count++] = p; /* without a place it is lost, and nothing is told of it */
}

/* The proposal that an event chooses among those decided or those not. NULL if there is none. */
static struct proposal *choose_proposal(uint32_t number, bool decided)
{
    uint32_t count = 0;
    for (uint32_t i = 0; i < cluster.proposal_count; i++)
        count += cluster.proposals[i].decided == decided;
    if (count == 0)
        return NULL;
    number %= count;
    for (uint32_t i = 0;; i++)
        if (cluster.proposals[i].decided == decided && number-- == 0)
            return &cluster.proposals[i];
}

static void forget_proposal(struct proposal *p)
{
    *p = cluster.proposals[--cluster.proposal_count];
}

/* Told once: an outcome, or that time is up. */
static const char *tell_outcome(struct proposal *p, uint8_t applied)
{
    struct node *node = node_of(p->node);
    uint32_t said =
        catalogue_outcome(LENT(node->header), NAMED(cluster.keys[p->shard]), p->epoch, p->peer, p->command, applied);
    p->awaited = false;
    return said == CATALOGUE_DONE ? NULL : unwanted("catalogue_outcome", said);
}

static const char *proposal_arrives(const struct event *e)
{
    struct proposal *p = choose_proposal(e->first, false);
    struct catalogue_message m;
    if (p == NULL)
        return NULL;
    catalogue_make_change(&m, stamp_of(NODE_CLIENT + p->node, p->seq), p->command, cluster.keys[p->shard], p->peer,
                          p->epoch);
    uint32_t said = apply(&m);
    if (said >= CATALOGUE_UNKNOWN_SHARD)
        return unwanted("catalogue_apply", said);
    tally.shrinks += said == CATALOGUE_DONE && p->command == CATALOGUE_COMMAND_SHRINK;
    tally.expands += said == CATALOGUE_DONE && p->command == CATALOGUE_COMMAND_EXPAND;
    tell("%s node %" PRIu64 " of shard %" PRIu32 ", proposed by node %" PRIu64 ": %s", word_of(p->command), p->peer,
         p->shard, p->node, said == CATALOGUE_DONE ? "applied" : catalogue_rejection(said));
    p->decided = true;
    p->applied = said == CATALOGUE_DONE;
    if (!p->awaited)
        forget_proposal(p);
    return NULL;
}

static const char *proposal_lost(const struct event *e)
{
    struct proposal *p = choose_proposal(e->first, false);
    if (p == NULL)
        return NULL;
    tell("%s node %" PRIu64 ", proposed by node %" PRIu64 ", is lost", word_of(p->command), p->peer, p->node);
    tally.lost++;
    const char *failure = NULL;
    if (p->awaited && e->second % 2 == 0)
        failure = tell_outcome(p, 0); /* as a timeout; else the node is told nothing */
    forget_proposal(p);
    return failure;
}

static const char *outcome_arrives(const struct event *e)
{
    struct proposal *p = choose_proposal(e->first, true);
    if (p == NULL)
        return NULL;
    tell("node %" PRIu64 " is told: %s node %" PRIu64 " of shard %" PRIu32 " %s", p->node, word_of(p->command), p->peer,
         p->shard, p->applied ? "was applied" : "was not");
    const char *failure = tell_outcome(p, p->applied);
    if (cluster.setting.wrong != OUTCOME_TWICE || e->second % 2 == 0)
        forget_proposal(p); /* the host OUTCOME_TWICE may tell it again later */
    return failure;
}

static const char *outcome_lost(const struct event *e)
{
    struct proposal *p = choose_proposal(e->first, true);
    if (p == NULL || cluster.setting.wrong == OUTCOME_TWICE)
        return NULL;
    tell("the outcome of %s node %" PRIu64 " never reaches node %" PRIu64, word_of(p->command), p->peer, p->node);
    tally.lost++;
    forget_proposal(p);
    return NULL;
}

/* The node is told that its proposal was not applied. It may still reach the map; its outcome then tells nobody. */
static const char *time_is_up(const struct event *e)
{
    struct proposal *p = choose_proposal(e->first, e->second % 2 == 0);
    if (p == NULL || !p->awaited)
        return NULL;
    tell("node %" PRIu64 " waits no longer for: %s node %" PRIu64 " of shard %" PRIu32, p->node, word_of(p->command),
         p->peer, p->shard);
    const char *failure = tell_outcome(p, 0);
    if (p->decided)
        forget_proposal(p);
    return failure;
}

/* ---- waits */

static struct accepted *choose_open(uint32_t number)
{
    uint32_t open = 0;
    for (uint32_t i = 0; i < cluster.write_count; i++)
        open += cluster.writes[i].became == OPEN;
    if (open == 0)
        return NULL;
    number %= open;
    for (uint32_t i = 0;; i++)
        if (cluster.writes[i].became == OPEN && number-- == 0)
            return &cluster.writes[i];
}

static const char *node_waits(const struct event *e)
{
    struct accepted *w = choose_open(e->first);
    uint8_t peers[CATALOGUE_PEERS], answer[CATALOGUE_ANSWER];
    if (w == NULL)
        return NULL;
    struct node *node = node_of(w->node);
    uint32_t said = catalogue_wait(LENT(node->header), NAMED(cluster.keys[w->shard]), w->epoch, w->offset, cluster.now,
                                   ACK_TIMEOUT, LENT(peers), LENT(answer));
    if (said == CATALOGUE_NOT_PRIMARY) {
        w->became = UNKNOWN;
        return NULL;
    }
    if (said > CATALOGUE_WAITING)
        return unwanted("catalogue_wait", said);
    if (said == CATALOGUE_DONE) {
        w->became = ACKNOWLEDGED;
        tally.acknowledged++;
        tell("node %" PRIu64 " acknowledges write %" PRIu64 " of shard %" PRIu32, w->node, w->offset, w->shard);
    } else {
        tell("node %" PRIu64 " cannot acknowledge write %" PRIu64 " of shard %" PRIu32 " yet", w->node, w->offset,
             w->shard);
    }
    for (uint64_t i = 0; i < catalogue_u64(answer); i++)
        propose(node, CATALOGUE_COMMAND_SHRINK, w->shard, catalogue_u64(peers + 8 * i), w->epoch);
    return NULL;
}

/* ---- workers and letters */

static struct worker *worker_of(uint64_t node, uint32_t shard, uint64_t peer)
{
    return &node_of(node)->workers[shard][peer - 1];
}

/* The worker that a number chooses among those that run: which node's, for which shard and peer. */
static struct worker *choose_worker(uint32_t number, uint64_t *node, uint32_t *shard, uint64_t *peer)
{
    const struct setting *s = &cluster.setting;
    uint32_t running = 0;
    for (uint32_t pass = 0; pass < 2; pass++) {
        for (*node = 1; *node <= s->nodes; ++*node)
            for (*shard = 0; *shard < s->shards; ++*shard)
                for (*peer = 1; *peer <= s->nodes; ++*peer) {
                    struct worker *w = worker_of(*node, *shard, *peer);
                    if (!w->runs)
                        continue;
                    if (pass == 0)
                        running++;
                    else if (number-- == 0)
                        return w;
                }
        if (running == 0)
            return NULL;
        number %= running;
    }
    return NULL;
}

static struct letter *new_letter(void)
{
    return cluster.letter_count == LETTERS_MOST ? NULL : &cluster.letters[cluster.order[cluster.letter_count]];
}

static const char *worker_steps(const struct event *e)
{
    uint64_t node, peer;
    uint32_t shard;
    struct worker *w = choose_worker(e->first, &node, &shard, &peer);
    struct letter *l = new_letter();
    uint8_t len[CATALOGUE_ANSWER];
    if (w == NULL || l == NULL)
        return NULL;
    struct node *n = node_of(node);
    uint32_t said = catalogue_step(LENT(n->header), LENT(n->stores), NAMED(cluster.keys[shard]), w->epoch, peer,
                                   w->metric, LENT(l->bytes), LENT(len));
    if (said > CATALOGUE_STEP_COPY)
        return unwanted("catalogue_step", said);
    w->runs = said != CATALOGUE_STEP_STOP;
    if (said == CATALOGUE_STEP_STOP && cluster.setting.wrong == EARLIER_MAP)
        return show_map(n, cluster.last_shown[node - 1]);
    if (said < CATALOGUE_STEP_ALIGN)
        return NULL;
    w->latest = ++cluster.last_number;
    l->from = node, l->to = peer, l->epoch = w->epoch, l->number = w->latest;
    l->shard = shard, l->step = said, l->len = (size_t)catalogue_u64(len);
    cluster.letter_count++;
    tell("node %" PRIu64 " sends node %" PRIu64 " a %s of shard %" PRIu32, node, peer, step_word(said), shard);
    return NULL;
}

/* Whether an older letter between the same two nodes is still under way. */
static bool overtakes(uint32_t place)
{
    const struct letter *chosen = &cluster.letters[cluster.order[place]];
    for (uint32_t older = 0; older < place; older++) {
        const struct letter *l = &cluster.letters[cluster.order[older]];
        if (l->from == chosen->from && l->to == chosen->to)
            return true;
    }
    return false;
}

/* Its slot is used again last. */
static void drop_letter(uint32_t place)
{
    uint32_t slot = cluster.order[place];
    cluster.letter_count--;
    memmove(cluster.order + place, cluster.order + place + 1, (LETTERS_MOST - 1 - place) * sizeof *cluster.order);
    cluster.order[LETTERS_MOST - 1] = slot;
}

static uint32_t receive(struct node *node, const struct letter *l, struct reply *r)
{
    if (l->step == CATALOGUE_STEP_ALIGN)
        return catalogue_new_epoch(LENT(node->header), LENT(node->stores), l->bytes, l->len, LENT(r->bytes));
    if (l->step == CATALOGUE_STEP_REPLICATE)
        return catalogue_replicate(LENT(node->header), LENT(node->stores), l->bytes, l->len, LENT(r->bytes));
    return catalogue_copy(LENT(node->header), LENT(node->stores), l->bytes, l->len, LENT(r->bytes));
}

static const char *request_arrives(const struct event *e)
{
    if (cluster.letter_count == 0 || cluster.reply_count == REPLIES_MOST)
        return NULL;
    uint32_t place = e->first % cluster.letter_count;
    const struct letter *l = &cluster.letters[cluster.order[place]];
    tally.overtaking += overtakes(place);
    struct reply *r = &cluster.replies[cluster.reply_count];
    r->to = l->from, r->from = l->to, r->epoch = l->epoch, r->number = l->number;
    r->shard = l->shard, r->step = l->step;
    tell("node %" PRIu64 " gets the %s of node %" PRIu64 " for shard %" PRIu32, l->to, step_word(l->step), l->from,
         l->shard);
    uint32_t said = receive(node_of(l->to), l, r);
    drop_letter(place);
    if (said == CATALOGUE_NO_ROOM)
        return NULL; /* a full log: no reply */
    if (said != CATALOGUE_DONE)
        return unwanted("a request's call", said);
    cluster.reply_count++;
    return NULL;
}

static const char *request_lost(const struct event *e)
{
    if (cluster.letter_count == 0)
        return NULL;
    uint32_t place = e->first % cluster.letter_count;
    const struct letter *l = &cluster.letters[cluster.order[place]];
    tell("the %s from node %" PRIu64 " to node %" PRIu64 " is lost", step_word(l->step), l->from, l->to);
    drop_letter(place);
    tally.lost++;
    return NULL;
}

/* The letter goes under way once more, behind all others. */
static const char *request_repeats(const struct event *e)
{
    struct letter *copy = new_letter();
    if (cluster.letter_count == 0 || copy == NULL)
        return NULL;
    const struct letter *l = &cluster.letters[cluster.order[e->first % cluster.letter_count]];
    tell("the %s from node %" PRIu64 " to node %" PRIu64 " is doubled", step_word(l->step), l->from, l->to);
    *copy = *l;
    cluster.letter_count++;
    tally.repeated++;
    return NULL;
}

static struct reply take_reply(uint32_t number)
{
    uint32_t place = number % cluster.reply_count;
    struct reply r = cluster.replies[place];
    cluster.reply_count--;
    memmove(cluster.replies + place, cluster.replies + place + 1, (cluster.reply_count - place) * sizeof r);
    return r;
}

/* A reply counts only for its worker's latest request; any other is dropped. */
static const char *reply_arrives(const struct event *e)
{
    if (cluster.reply_count == 0)
        return NULL;
    struct reply r = take_reply(e->first);
    const struct worker *w = worker_of(r.to, r.shard, r.from);
    if (!w->runs || w->epoch != r.epoch || w->latest != r.number)
        return NULL;
    struct node *node = node_of(r.to);
    uint32_t said = catalogue_ack(LENT(node->header), NAMED(cluster.keys[r.shard]), r.epoch, r.from, (uint8_t)r.step,
                                  LENT(r.bytes));
    if (said > CATALOGUE_PROPOSE)
        return unwanted("catalogue_ack", said);
    tell("node %" PRIu64 " has the reply of node %" PRIu64 " for shard %" PRIu32, r.to, r.from, r.shard);
    if (said == CATALOGUE_PROPOSE)
        propose(node, CATALOGUE_COMMAND_EXPAND, r.shard, r.from, r.epoch);
    return NULL;
}

static const char *reply_lost(const struct event *e)
{
    if (cluster.reply_count == 0)
        return NULL;
    struct reply r = take_reply(e->first);
    tell("the reply from node %" PRIu64 " to node %" PRIu64 " is lost", r.from, r.to);
    tally.lost++;
    return NULL;
}

static const char *reply_repeats(const struct event *e)
{
    if (cluster.reply_count == 0 || cluster.reply_count == REPLIES_MOST)
        return NULL;
    const struct reply *r = &cluster.replies[e->first % cluster.reply_count];
    tell("the reply from node %" PRIu64 " to node %" PRIu64 " is doubled", r->from, r->to);
    cluster.replies[cluster.reply_count++] = *r;
    tally.repeated++;
    return NULL;
}

/* ---- the clock, leases, restarts */

/* The host EARLIER_IMAGES saves a node's images now and then, and not before each answer. */
static const char *lease_granted(const struct event *e)
{
    struct node *node = choose_node(e->first);
    uint32_t said = catalogue_grant(LENT(node->header), INCARNATION, cluster.now, LEASE);
    if (cluster.setting.wrong == EARLIER_IMAGES) {
        memcpy(node->saved_header, node->header, sizeof node->header);
        memcpy(node->saved_stores, node->stores, sizeof node->stores);
    }
    tell("node %" PRIu64 " has a lease%s", node->id,
         cluster.setting.wrong == EARLIER_IMAGES ? ", and its images are saved" : "");
    return said == CATALOGUE_DONE ? NULL : unwanted("catalogue_grant", said);
}

static const char *clock_moves(const struct event *e)
{
    cluster.now += 1 + e->first % CLOCK_MOST;
    tell("it is %" PRIu64, cluster.now);
    return NULL;
}

/* A primary's rows say which workers it has. No request is theirs yet, so that no reply counts. */
static void restart_workers(struct node *node)
{
    memset(node->workers, 0, sizeof node->workers);
    for (uint32_t shard = 0; shard < cluster.setting.shards; shard++) {
        const uint8_t *row = held_row(node, shard);
        if (row == NULL || catalogue_u32(row + CATALOGUE_HELD_ROLE) != 1)
            continue;
        for (uint64_t i = 0; i < catalogue_u64(row + CATALOGUE_HELD_PEER_COUNT); i++)
            start_worker(
                node, shard, catalogue_u64(row + CATALOGUE_HELD_PEERS + i * CATALOGUE_PEER_SIZE + CATALOGUE_PEER_NODE),
                catalogue_u64(row + CATALOGUE_HELD_PRIMARY_EPOCH), (uint8_t)catalogue_u32(row + CATALOGUE_HELD_METRIC));
    }
}

/* A restarted host has its images and the seq of its last proposal. It waits for no outcome any more. */
static const char *node_restarts(const struct event *e)
{
    struct node *node = choose_node(e->first);
    const char *failure = NULL;
    if (cluster.setting.wrong == EARLIER_IMAGES) {
        memcpy(node->header, node->saved_header, sizeof node->header);
        memcpy(node->stores, node->saved_stores, sizeof node->stores);
    }
    tell("node %" PRIu64 " restarts", node->id);
    tally.restarts++;
    restart_workers(node);
    for (uint32_t i = cluster.proposal_count; i-- > 0 && failure == NULL;) {
        struct proposal *p = &cluster.proposals[i];
        if (p->node != node->id || !p->awaited)
            continue;
        failure = tell_outcome(p, 0);
        if (p->decided)
            forget_proposal(p);
    }
    return failure;
}

/* ---- all events */

static const char *(*const plays[KINDS])(const struct event *) = {
    [WRITE] = client_writes,
    [SEARCH] = client_searches,
    [WAIT] = node_waits,
    [STEP] = worker_steps,
    [REQUEST_ARRIVES] = request_arrives,
    [REQUEST_LOST] = request_lost,
    [REQUEST_REPEATS] = request_repeats,
    [REPLY_ARRIVES] = reply_arrives,
    [REPLY_LOST] = reply_lost,
    [REPLY_REPEATS] = reply_repeats,
    [PROPOSAL_ARRIVES] = proposal_arrives,
    [PROPOSAL_LOST] = proposal_lost,
    [OUTCOME_ARRIVES] = outcome_arrives,
    [OUTCOME_LOST] = outcome_lost,
    [TIMEOUT] = time_is_up,
    [MAP_SHOWN] = map_shown,
    [GRANT] = lease_granted,
    [CLOCK] = clock_moves,
    [PROMOTE] = promote,
    [RESTART] = node_restarts,
};

const char *play(const struct event *event)
{
    tally.events++;
    return plays[event->kind](event);
}

/* ---- a fresh cluster */

static void must(const char *call, uint32_t said)
{
    if (said == CATALOGUE_DONE)
        return;
    fprintf(stderr, "simulate: a fresh cluster cannot be made: %s\n", unwanted(call, said));
    exit(EXIT_FAILURE);
}

static void begin_node(struct node *node, uint64_t id)
{
    struct catalogue_message m;
    node->id = id;
    node->seq = 0;
    memset(node->workers, 0, sizeof node->workers);
    memset(node->refused, 0, sizeof node->refused);
    must("catalogue_fresh_node", catalogue_fresh_node(LENT(node->header), id, INCARNATION));
    catalogue_make_register(&m, stamp_of(PROMOTER, ++cluster.promoter_seq), id, "projector", INCARNATION);
    must("catalogue_apply", apply(&m));
}

static void create_shards(const struct setting *s)
{
    uint8_t lists[CATALOGUE_LISTS];
    struct catalogue_message m;
    must("catalogue_place", catalogue_place(LENT(cluster.map), s->shards, s->replication, LENT(lists)));
    catalogue_make_create(&m, stamp_of(PROMOTER, ++cluster.promoter_seq), "stars", s->dimension, s->metric, s->shards,
                          s->replication, lists);
    must("catalogue_apply", apply(&m));
}

void begin_cluster(const struct setting *setting)
{
    bool told = telling;
    telling = false;
    cluster.setting = *setting;
    cluster.now = 1, cluster.last_index = 0, cluster.promoter_seq = 0, cluster.last_number = 0;
    cluster.letter_count = 0, cluster.reply_count = 0, cluster.proposal_count = 0, cluster.write_count = 0;
    for (uint32_t i = 0; i < LETTERS_MOST; i++)
        cluster.order[i] = i;
    for (uint32_t i = 0; i < SHARDS_MOST; i++)
        catalogue_make_key(cluster.keys[i], "stars", i);
    must("catalogue_empty_map", catalogue_empty_map(LENT(cluster.map)));
    for (uint64_t id = 1; id <= setting->nodes; id++)
        begin_node(node_of(id), id);
    create_shards(setting);
    for (uint64_t id = 1; id <= setting->nodes; id++) {
        struct node *node = node_of(id);
        memcpy(cluster.last_shown[id - 1], cluster.map, sizeof cluster.map);
        if (show_map(node, cluster.map) != NULL)
            must("catalogue_show_map", CATALOGUE_MALFORMED);
        must("catalogue_grant", catalogue_grant(LENT(node->header), INCARNATION, cluster.now, LEASE));
        memcpy(node->saved_header, node->header, sizeof node->header);
    }
    telling = told;
}
