/* A dome in one process: a host of the catalogue engine, to learn from.
 *
 * Three projector computers, nodes 1, 2 and 3, keep one catalogue of stars. The engine decides what each message, map
 * and clock reading does to a node. Everything else is the host's, and here: the memory, the clock, the cables between
 * the nodes, which lose a quarter of what they carry, and the place where the shard map is kept.
 *
 * The story: presenters write and search. Node 3 is unplugged and leaves the in-sync set. Node 1, the primary, is
 * unplugged with an edit that no other node has, and node 2 is promoted. Node 3 comes back and lacks one edit of the
 * older epoch; node 1 comes back and has one too many. At the end the logs are read from the images: every edit that
 * was acknowledged stands on every node in sync.
 *
 * The host begins by the engine's calls and keeps the rules of a run, and for every run that does both this ending is
 * proved (docs/CLAIMS.md, 'Rules of a run'). Comments say where a rule is at work. Read from the bottom: main is the
 * story, tick the host's loop, and the engine's calls stand above.
 *
 * Nothing is random: each run prints the same. Build with -Iinclude, and link the engine's library. With the name of a
 * file it draws the run too, as an SVG (examples/picture.h): its events are noted where they happen, by picture_..
 */
#include <inttypes.h>
#include <stdio.h>
#include <stdlib.h>
#include <string.h>

#include "catalogue.h"
#include "catalogue_images.h"
#include "catalogue_messages.h"
#include "catalogue_words.h"
#include "picture.h"

/* ---- settings. Times are in microseconds; the engine takes any unit */

#define TICK 50000u             /* how far the clock moves at a time, and how long a letter is under way */
#define HEARTBEAT 1000000u      /* how often a node asks for its lease and the map */
#define LEASE 3000000u          /* how long a granted lease holds */
#define ACK_TIMEOUT 1000000u    /* how long a node in sync may be behind before a Shrink is proposed */
#define ANSWER_TIMEOUT 1000000u /* how long a node waits for the outcome of its proposal */
#define PATIENCE 400            /* ticks after which the story counts as stuck */

#define LEAST_IN_SYNC 2u /* an edit is taken only with so many in sync */
#define EUCLIDEAN 0u     /* the metric of the one collection */
#define INCARNATION 1u   /* of every node; in a run none starts over */

#define TECHNICIAN 1u    /* client numbers all differ: the technician's, */
#define NODE_CLIENT 100u /* and of each node this and its id */

enum { NODES = 3, MAX_WORKERS = 8, MAX_PROPOSALS = 16, MAX_EDITS = 16, MAX_HITS = 8, DIMENSION = 3 };

/* A buffer and its length, as every call takes them. For arrays only. */
#define LENT(array) (array), sizeof(array)

/* A key as on the wire, as the calls take it: its name, the name's length, and the number of the shard. */
#define NAMED(key) (key) + 1, (key)[0], catalogue_u32((key) + 33)

/* ---- the dome's state */

/* A worker keeps one peer of a primary up to date. It has one request under way at most, and takes its next step when
 * the reply is there or a letter is lost. So a reply is always one to the latest request. In this dome no letter
 * overtakes another or comes twice; a link may do both. */
enum worker_state { NOT_STARTED, QUIET, ASKED, ANSWERED };

struct worker {
    enum worker_state state;
    uint8_t key[CATALOGUE_KEY]; /* this and the next three are as catalogue_show_map told them */
    uint64_t peer, epoch;
    uint8_t metric;
    uint32_t step; /* which step the request under way is */
    size_t request_len;
    uint8_t request[CATALOGUE_REQUEST];
    uint8_t reply[CATALOGUE_REPLY];
};

struct node {
    uint64_t id;
    uint64_t seq; /* of its last proposal; they rise */
    int unplugged;
    uint32_t led; /* whether it was primary when we last looked */
    uint8_t header[CATALOGUE_HEADER];
    uint8_t stores[CATALOGUE_STORES];   /* need no filling */
    uint8_t refused[CATALOGUE_REFUSED]; /* begins at zero, as everything static does */
    struct worker workers[MAX_WORKERS];
};

/* A Shrink or an Expand on its way from a node to the map. */
struct proposal {
    uint64_t node, seq, peer, epoch, since;
    uint8_t command;
    int awaited; /* 0 once the node was told that time is up: that was the outcome, and no other may follow */
};

enum fate { OPEN, ACKNOWLEDGED, UNKNOWN };

/* An edit that a node accepted. A wait for it names node, epoch and offset. */
struct edit {
    const char *who;
    uint64_t node, epoch, offset, since;
    struct catalogue_op what;
    enum fate became;
};

static struct node nodes[NODES];
static uint8_t map[CATALOGUE_MAP];
static uint8_t key[CATALOGUE_KEY]; /* of the one shard, as on the wire */
static uint64_t now;
static uint64_t last_index;     /* of a request to the map; they rise */
static uint64_t technician_seq; /* of the technician's last request; they rise */
static struct proposal proposals[MAX_PROPOSALS];
static int proposal_count;
static struct edit edits[MAX_EDITS];
static int edit_count;
static int letters_lost, lone_copies;

/* ---- ends that the story does not want */

static void give_up(const char *sentence)
{
    fflush(stdout);
    fprintf(stderr, "dome: %s.\n", sentence);
    exit(EXIT_FAILURE);
}

/* What a number means. Refusals mean the same in every call, rejections are the map's, other answers a call's own. */
static const char *meaning(const char *call, uint32_t number)
{
    if (catalogue_refusal(number))
        return catalogue_refusal(number);
    if (strcmp(call, "catalogue_apply") == 0)
        return number == CATALOGUE_DONE ? "applied" : catalogue_rejection(number);
    if (number == 1 && strcmp(call, "catalogue_place") == 0)
        return "none, there are too few live nodes";
    return number == CATALOGUE_DONE ? "done" : "no answer that this call should give here";
}

/* Ends the program where a call answers anything but what belongs here. */
static void expect(const char *call, uint32_t said, uint32_t expected)
{
    if (said == expected)
        return;
    fflush(stdout);
    fprintf(stderr, "dome: %s answered %" PRIu32 " (%s) where %" PRIu32 " (%s) belongs.\n", call, said,
            meaning(call, said), expected, meaning(call, expected));
    exit(EXIT_FAILURE);
}

/* ---- words */

static void print_time(void)
{
    printf("%5.2f s  ", (double)now / 1e6);
}

/* One line with the time in front. Lines about nodes are set in, below what presenters see. */
#define say(...) (print_time(), printf(__VA_ARGS__), putchar('\n'))

static unsigned tick_of(uint64_t time)
{
    return (unsigned)(time / TICK);
}

/* The next part of the story, for the reader and for the picture. */
static void chapter(const char *title, const char *in_short)
{
    printf("\n%s\n", title);
    picture_chapter(tick_of(now), in_short);
}

enum { VEGA = 1, SIRIUS, POLARIS, ALTAIR };

static const char *name_of(uint64_t id)
{
    static const char *const names[] = {"", "Vega", "Sirius", "Polaris", "Altair"};
    return id >= VEGA && id <= ALTAIR ? names[id] : "a star without a name";
}

static void print_spot(const float *spot)
{
    printf("(%g, %g, %g)", (double)spot[0], (double)spot[1], (double)spot[2]);
}

static void print_op(const struct catalogue_op *op)
{
    printf("%s %s", op->code == CATALOGUE_DELETE ? "remove" : "put", name_of(op->id));
    if (op->code == CATALOGUE_DELETE)
        return;
    printf(" at ");
    print_spot(op->vector);
}

/* ---- reading images, by the offsets of docs/IMAGES.md. There is one shard, so it is the first row everywhere */

static uint64_t map_primary(void)
{
    return catalogue_u64(map + CATALOGUE_MAP_SHARDS + CATALOGUE_SHARD_PRIMARY);
}

static uint64_t map_epoch(void)
{
    return catalogue_u64(map + CATALOGUE_MAP_SHARDS + CATALOGUE_SHARD_EPOCH);
}

static uint64_t in_sync_count(void)
{
    return catalogue_u64(map + CATALOGUE_MAP_SHARDS + CATALOGUE_SHARD_SYNC_COUNT);
}

static int is_in_sync(uint64_t id)
{
    for (uint64_t i = 0; i < in_sync_count(); i++)
        if (catalogue_u64(map + CATALOGUE_MAP_SHARDS + CATALOGUE_SHARD_SYNC + 8 * i) == id)
            return 1;
    return 0;
}

static struct node *node_of(uint64_t id)
{
    if (id < 1 || id > NODES)
        give_up("there is talk of a node that this dome does not have");
    return &nodes[id - 1];
}

/* The node's record of the shard; none before a map has listed it. */
static const uint8_t *held(const struct node *n)
{
    return catalogue_u64(n->header + CATALOGUE_HEADER_HELD_COUNT) == 1 ? n->header + CATALOGUE_HEADER_HELD : NULL;
}

static uint32_t leads(const struct node *n)
{
    return held(n) != NULL ? catalogue_u32(held(n) + CATALOGUE_HELD_ROLE) : 0;
}

static uint64_t entries_of(const struct node *n)
{
    return held(n) != NULL ? catalogue_u64(held(n) + CATALOGUE_HELD_ENTRIES) : 0;
}

struct entry {
    uint64_t epoch, offset;
    struct catalogue_op what;
};

/* The entry at a place below entries_of. */
static struct entry entry_at(const struct node *n, uint64_t place)
{
    const uint8_t *store = n->stores + catalogue_u64(held(n) + CATALOGUE_HELD_SLOT) * CATALOGUE_STORE;
    struct entry e;
    e.epoch = catalogue_u64(store + CATALOGUE_STORE_EPOCHS + 8 * place);
    e.offset = catalogue_u64(store + CATALOGUE_STORE_OFFSETS + 8 * place);
    e.what.code = store[CATALOGUE_STORE_CODES + place];
    e.what.id = catalogue_u64(store + CATALOGUE_STORE_IDS + 8 * place);
    e.what.count = store[CATALOGUE_STORE_LENGTHS + place];
    for (unsigned i = 0; i < CATALOGUE_VECTOR_ROOM; i++)
        e.what.vector[i] = catalogue_float_of(
            i < e.what.count ? catalogue_u32(store + CATALOGUE_STORE_PATTERNS + 128 * place + 4 * i) : 0);
    return e;
}

/* Bit by bit; unused components are zero on both sides. */
static int same_op(const struct catalogue_op *a, const struct catalogue_op *b)
{
    return a->code == b->code && a->id == b->id && a->count == b->count &&
           memcmp(a->vector, b->vector, sizeof a->vector) == 0;
}

/* How things stand now. */
static void note_moment(void)
{
    unsigned in_sync = 0, lead = 0, unplugged = 0;
    for (unsigned i = 0; i < NODES; i++) {
        in_sync |= (unsigned)is_in_sync(nodes[i].id) << (i + 1);
        lead |= (unsigned)(leads(&nodes[i]) != 0) << (i + 1);
        unplugged |= (unsigned)(nodes[i].unplugged != 0) << (i + 1);
    }
    picture_moment(tick_of(now), map_epoch(), in_sync, lead, unplugged);
}

static void print_log(const struct node *n)
{
    printf("         log of node %" PRIu64 ", %s in sync:", n->id, is_in_sync(n->id) ? "which is" : "not");
    for (uint64_t place = 0; place < entries_of(n); place++) {
        struct entry e = entry_at(n, place);
        printf("%s %" PRIu64 " %s%s", place == 0 ? "" : ",", e.offset, e.what.code == CATALOGUE_DELETE ? "no " : "",
               name_of(e.what.id));
        printf(" (epoch %" PRIu64 ")", e.epoch);
    }
    printf("\n");
}

/* Tells when a node becomes primary and when it ceases to be. */
static void note_role(struct node *n, const char *why)
{
    if (leads(n) == n->led)
        return;
    n->led = leads(n);
    say("    node %" PRIu64 " is primary %s: %s", n->id, n->led ? "now" : "no more", why);
}

/* ---- the shard map */

static struct catalogue_stamp stamp_of(uint64_t client, uint64_t seq)
{
    struct catalogue_stamp by = {++last_index, client, seq};
    return by;
}

/* 0 applied, 1 to 16 rejected. What this host sends is never refused. */
static uint32_t apply(const struct catalogue_message *m)
{
    uint32_t said = catalogue_apply(LENT(map), m->bytes, m->len);
    if (said >= CATALOGUE_UNKNOWN_SHARD)
        expect("catalogue_apply", said, CATALOGUE_DONE);
    return said;
}

static void start_worker(struct node *n, const uint8_t *row)
{
    struct worker *w = n->workers;
    while (w < n->workers + MAX_WORKERS && w->state != NOT_STARTED)
        w++;
    if (w == n->workers + MAX_WORKERS)
        give_up("a node has more workers than this host has places for");
    memcpy(w->key, row, CATALOGUE_KEY);
    w->peer = catalogue_u64(row + CATALOGUE_KEY);
    w->epoch = catalogue_u64(row + CATALOGUE_KEY + 8);
    w->metric = row[CATALOGUE_KEY + 16];
    w->state = QUIET;
}

/* A shown map is always the map of that moment, never a copy from earlier: docs/LOST-WRITES.md says why. */
static void show_map(struct node *n)
{
    static uint8_t starts[CATALOGUE_STARTS];
    uint8_t count[CATALOGUE_ANSWER];
    uint32_t said = catalogue_show_map(LENT(n->header), LENT(map), INCARNATION + 1, LENT(starts), LENT(count));
    expect("catalogue_show_map", said, CATALOGUE_DONE);
    for (uint64_t i = 0; i < catalogue_u64(count); i++)
        start_worker(n, starts + i * CATALOGUE_START);
    note_role(n, "so says the map");
}

/* A lease counts from when it was asked for, never from when the answer came. Here both are one moment. */
static void heartbeats(void)
{
    for (int i = 0; i < NODES; i++) {
        struct node *n = &nodes[i];
        if (n->unplugged)
            continue;
        expect("catalogue_grant", catalogue_grant(LENT(n->header), INCARNATION, now, LEASE), CATALOGUE_DONE);
        show_map(n);
    }
    note_moment();
}

/* ---- proposals, which nodes make when a call answers so, and their outcomes */

static const char *const shrink_words[] = {"", "Shrink 1", "Shrink 2", "Shrink 3"};
static const char *const expand_words[] = {"", "Expand 1", "Expand 2", "Expand 3"};

static const char *word_of(uint8_t command)
{
    return command == CATALOGUE_COMMAND_SHRINK ? "Shrink" : "Expand";
}

static void propose(struct node *n, uint8_t command, uint64_t peer, uint64_t epoch)
{
    struct proposal p = {n->id, ++n->seq, peer, epoch, now, command, 1};
    if (proposal_count == MAX_PROPOSALS)
        give_up("more proposals are under way than this host has places for");
    proposals[proposal_count++] = p;
    say("    node %" PRIu64 " proposes: %s node %" PRIu64, n->id, word_of(command), peer);
}

/* An outcome is told once or never. Told twice, it could lose an edit: docs/LOST-WRITES.md. */
static void tell_outcome(struct proposal *p, uint8_t applied)
{
    struct node *n = node_of(p->node);
    uint32_t said = catalogue_outcome(LENT(n->header), NAMED(key), p->epoch, p->peer, p->command, applied);
    expect("catalogue_outcome", said, CATALOGUE_DONE);
    p->awaited = 0;
}

/* A proposal reaches the map. What a deposed primary proposed comes to nothing there, since it names an older epoch. */
static void decide(struct proposal *p)
{
    struct catalogue_message m;
    catalogue_make_change(&m, stamp_of(NODE_CLIENT + p->node, p->seq), p->command, key, p->peer, p->epoch);
    uint32_t said = apply(&m);
    say("    %s node %" PRIu64 ", proposed by node %" PRIu64 "%s: %s", word_of(p->command), p->peer, p->node,
        p->awaited ? "" : " long ago", meaning("catalogue_apply", said));
    picture_proposal(tick_of(p->since), tick_of(now), (unsigned)p->node, said == CATALOGUE_DONE,
                     p->command == CATALOGUE_COMMAND_SHRINK ? shrink_words[p->peer] : expand_words[p->peer]);
    if (p->awaited)
        tell_outcome(p, said == CATALOGUE_DONE ? 1 : 0);
}

/* A timeout is an outcome too: not applied. The proposal stays under way, and may still arrive. */
static void time_out(struct proposal *p)
{
    if (!p->awaited || now - p->since <= ANSWER_TIMEOUT)
        return;
    tell_outcome(p, 0);
    say("    node %" PRIu64 " has no answer to: %s node %" PRIu64, p->node, word_of(p->command), p->peer);
}

static void settle_proposals(void)
{
    int kept = 0;
    for (int i = 0; i < proposal_count; i++) {
        struct proposal p = proposals[i];
        if (node_of(p.node)->unplugged) {
            time_out(&p);
            proposals[kept++] = p;
        } else {
            decide(&p);
        }
    }
    proposal_count = kept;
}

/* ---- workers, and the letters between nodes */

/* What becomes of a letter. A small fixed generator loses sixteen of sixty-four. */
static enum picture_fate fate_of(const struct node *from, const struct node *to)
{
    static unsigned dice;
    if (from->unplugged || to->unplugged)
        return PICTURE_UNPLUGGED;
    dice = (5 * dice + 3) % 64;
    if (dice >= 16)
        return PICTURE_ARRIVED;
    letters_lost++;
    return PICTURE_LOST;
}

/* Whether a letter that was sent a tick ago is lost. */
static int is_lost(const struct node *from, const struct node *to, int is_reply)
{
    enum picture_fate fate = fate_of(from, to);
    picture_letter(is_reply, tick_of(now) - 1, (unsigned)from->id, (unsigned)to->id, fate);
    return fate != PICTURE_ARRIVED;
}

static void take_step(struct node *n, struct worker *w)
{
    uint8_t len[CATALOGUE_ANSWER];
    w->step = catalogue_step(LENT(n->header), LENT(n->stores), NAMED(w->key), w->epoch, w->peer, w->metric,
                             LENT(w->request), LENT(len));
    if (w->step > CATALOGUE_STEP_COPY)
        expect("catalogue_step", w->step, CATALOGUE_STEP_WAIT);
    if (w->step == CATALOGUE_STEP_STOP)
        w->state = NOT_STARTED;
    if (w->step == CATALOGUE_STEP_STOP || w->step == CATALOGUE_STEP_WAIT)
        return;
    w->request_len = (size_t)catalogue_u64(len);
    w->state = ASKED;
}

/* A lone entry of an older epoch goes as CopyShard, which keeps its epoch. As Replicate it would be stored under the
 * newer one, and a later alignment would cut it off: docs/LOST-WRITES.md. In a CopyShard the epoch stands at 38, the
 * count at 46, the first entry's epoch and offset at 48 and 56. */
static void note_lone_copy(const struct worker *w)
{
    uint64_t epoch = catalogue_u64(w->request + 38), entry_epoch = catalogue_u64(w->request + 48);
    if (w->request[46] != 1 || w->request[47] != 0 || entry_epoch >= epoch)
        return;
    lone_copies++;
    say("    node %" PRIu64 " gets number %" PRIu64 " of epoch %" PRIu64 " alone, as CopyShard under epoch %" PRIu64,
        w->peer, catalogue_u64(w->request + 56), entry_epoch, epoch);
}

/* Each kind of request has its call, and the reply goes back. A refusal, of a full log say, would send none; the story
 * has no such. */
static void deliver_request(struct node *n, struct worker *w)
{
    struct node *peer = node_of(w->peer);
    const uint8_t *request = w->request;
    uint32_t said;
    w->state = QUIET;
    if (is_lost(n, peer, 0))
        return;
    if (w->step == CATALOGUE_STEP_ALIGN) {
        said = catalogue_new_epoch(LENT(peer->header), LENT(peer->stores), request, w->request_len, LENT(w->reply));
        expect("catalogue_new_epoch", said, CATALOGUE_DONE);
        note_role(peer, "a new primary has aligned its log");
    } else if (w->step == CATALOGUE_STEP_REPLICATE) {
        said = catalogue_replicate(LENT(peer->header), LENT(peer->stores), request, w->request_len, LENT(w->reply));
        expect("catalogue_replicate", said, CATALOGUE_DONE);
    } else {
        said = catalogue_copy(LENT(peer->header), LENT(peer->stores), request, w->request_len, LENT(w->reply));
        expect("catalogue_copy", said, CATALOGUE_DONE);
        note_lone_copy(w);
    }
    w->state = ANSWERED;
}

/* A reply is an ack for the step that it answers. */
static void hear_reply(struct node *n, struct worker *w)
{
    w->state = QUIET;
    if (is_lost(node_of(w->peer), n, 1))
        return;
    uint32_t said = catalogue_ack(LENT(n->header), NAMED(w->key), w->epoch, w->peer, (uint8_t)w->step, LENT(w->reply));
    if (said > CATALOGUE_PROPOSE)
        expect("catalogue_ack", said, CATALOGUE_DONE);
    if (said == CATALOGUE_PROPOSE)
        propose(n, CATALOGUE_COMMAND_EXPAND, w->peer, w->epoch);
    note_role(n, "a reply named a later epoch");
}

static void each_worker(enum worker_state state, void (*act)(struct node *, struct worker *))
{
    for (int i = 0; i < NODES; i++)
        for (int j = 0; j < MAX_WORKERS; j++)
            if (nodes[i].workers[j].state == state)
                act(&nodes[i], &nodes[i].workers[j]);
}

/* ---- presenters */

static struct catalogue_op star(uint64_t id, float x, float y, float z)
{
    struct catalogue_op op = {CATALOGUE_UPSERT, id, DIMENSION, {x, y, z}};
    return op;
}

static struct catalogue_op removal(uint64_t id)
{
    struct catalogue_op op = {CATALOGUE_DELETE, id, 0, {0}};
    return op;
}

/* How a line ends when a presenter is turned down. */
static void print_refusal(const struct node *n, uint32_t said, const uint8_t *answer)
{
    printf(" node %" PRIu64 " turns that down, %" PRIu32 ": %s", n->id, said, meaning("", said));
    if (said == CATALOGUE_NOT_PRIMARY)
        printf(" (its own is %" PRIu64 ")", catalogue_u64(answer));
    printf("\n");
}

/* A presenter sends an edit to a node, under the epoch that the presenter knows. What is taken is not safe yet: it is
 * acknowledged once a wait for it says done. */
static void send_edit(const char *who, uint64_t to, uint64_t epoch, struct catalogue_op what, uint32_t expected)
{
    struct node *n = node_of(to);
    struct catalogue_message m;
    uint8_t answer[CATALOGUE_ANSWER];
    catalogue_make_write(&m, key, epoch, &what);
    uint32_t said = catalogue_write(LENT(n->header), LENT(n->stores), LENT(n->refused), now, LEAST_IN_SYNC, m.bytes,
                                    m.len, LENT(answer));
    expect("catalogue_write", said, expected);
    print_time();
    printf("%s: ", who);
    print_op(&what);
    printf(";");
    if (said != CATALOGUE_DONE) {
        print_refusal(n, said, answer);
        return;
    }
    printf(" node %" PRIu64 " takes it as number %" PRIu64 ", not yet safe\n", to, catalogue_u64(answer));
    struct edit e = {who, to, epoch, catalogue_u64(answer), now, what, OPEN};
    if (edit_count == MAX_EDITS)
        give_up("more edits were taken than this host has places for");
    edits[edit_count++] = e;
}

static void search(const char *who, uint64_t at, uint64_t epoch, uint32_t k, const float *spot, uint32_t expected)
{
    struct node *n = node_of(at);
    struct catalogue_message m;
    uint8_t hits[MAX_HITS * CATALOGUE_HIT], answer[CATALOGUE_ANSWER];
    catalogue_make_search(&m, key, epoch, k, spot, DIMENSION);
    uint32_t said = catalogue_search(LENT(n->header), LENT(n->stores), LENT(n->refused), now, m.bytes, m.len,
                                     LENT(hits), LENT(answer));
    expect("catalogue_search", said, expected);
    print_time();
    printf("%s: what is near ", who);
    print_spot(spot);
    printf("?");
    if (said != CATALOGUE_DONE) {
        print_refusal(n, said, answer);
        return;
    }
    printf(" node %" PRIu64 " knows", at);
    for (uint64_t i = 0; i < catalogue_u64(answer); i++) {
        const uint8_t *hit = hits + i * CATALOGUE_HIT;
        double distance = (double)catalogue_float_of(catalogue_u32(hit + 8));
        printf("%s %s at %.2f", i == 0 ? "" : ",", name_of(catalogue_u64(hit)), distance);
    }
    printf("\n");
}

static void note_edit(const struct edit *e)
{
    const char *name = e->what.code == CATALOGUE_DELETE ? "no Vega" : name_of(e->what.id);
    picture_edit(tick_of(e->since), tick_of(now), (unsigned)e->node, e->became == ACKNOWLEDGED, name);
}

/* Asks once whether an edit is acknowledged. Done or not, a wait may call for Shrinks. */
static void ask_wait(struct edit *e)
{
    struct node *n = node_of(e->node);
    uint8_t peers[CATALOGUE_PEERS], answer[CATALOGUE_ANSWER];
    uint32_t said =
        catalogue_wait(LENT(n->header), NAMED(key), e->epoch, e->offset, now, ACK_TIMEOUT, LENT(peers), LENT(answer));
    if (said == CATALOGUE_NOT_PRIMARY) {
        e->became = UNKNOWN;
        note_edit(e);
        say("%s hears: node %" PRIu64 " was deposed (its epoch is %" PRIu64 "); number %" PRIu64
            " was never acknowledged",
            e->who, n->id, catalogue_u64(answer), e->offset);
        return;
    }
    if (said > CATALOGUE_WAITING)
        expect("catalogue_wait", said, CATALOGUE_DONE);
    if (said == CATALOGUE_DONE) {
        e->became = ACKNOWLEDGED;
        note_edit(e);
        say("%s hears: number %" PRIu64 " is acknowledged", e->who, e->offset);
    }
    for (uint64_t i = 0; i < catalogue_u64(answer); i++)
        propose(n, CATALOGUE_COMMAND_SHRINK, catalogue_u64(peers + 8 * i), e->epoch);
}

static void ask_waits(void)
{
    for (int i = 0; i < edit_count; i++)
        if (edits[i].became == OPEN)
            ask_wait(&edits[i]);
}

/* ---- the host's loop */

/* Replies arrive before requests and requests before new steps, so that each letter is under way for one tick. */
static void tick(void)
{
    now += TICK;
    if (now % HEARTBEAT == 0)
        heartbeats();
    settle_proposals();
    each_worker(ANSWERED, hear_reply);
    each_worker(ASKED, deliver_request);
    each_worker(QUIET, take_step);
    ask_waits();
    note_moment();
}

static void run_until(int (*happened)(void), const char *otherwise)
{
    for (int ticks = 0; !happened(); ticks++) {
        if (ticks == PATIENCE)
            give_up(otherwise);
        tick();
    }
}

static int every_edit_is_settled(void)
{
    for (int i = 0; i < edit_count; i++)
        if (edits[i].became == OPEN)
            return 0;
    return 1;
}

static int last_edit_is_settled(void)
{
    return edits[edit_count - 1].became != OPEN;
}

static int lease_of_node_1_is_over(void)
{
    return now >= catalogue_u64(nodes[0].header + CATALOGUE_HEADER_EXPIRY);
}

static int node_1_is_deposed(void)
{
    return !leads(&nodes[0]);
}

static int two_are_in_sync(void)
{
    return in_sync_count() == 2;
}

static int all_are_in_sync(void)
{
    return in_sync_count() == NODES;
}

/* ---- what the technician does */

static void set_plug(uint64_t id, int plugged)
{
    node_of(id)->unplugged = !plugged;
    note_moment();
    say("Node %" PRIu64 " is %s", id, plugged ? "plugged in again" : "unplugged");
}

static void register_node(struct node *n, uint64_t id)
{
    char address[CATALOGUE_ADDRESS_ROOM + 1];
    struct catalogue_message m;
    n->id = id;
    expect("catalogue_fresh_node", catalogue_fresh_node(LENT(n->header), id, INCARNATION), CATALOGUE_DONE);
    snprintf(address, sizeof address, "projector-%" PRIu64, id);
    catalogue_make_register(&m, stamp_of(TECHNICIAN, ++technician_seq), id, address, INCARNATION);
    expect("catalogue_apply", apply(&m), CATALOGUE_DONE);
}

/* One shard on all three, in the order of catalogue_place: the first is primary. */
static void create_stars(void)
{
    uint8_t lists[CATALOGUE_LISTS];
    struct catalogue_message m;
    catalogue_make_key(key, "stars", 0);
    expect("catalogue_place", catalogue_place(LENT(map), 1, NODES, LENT(lists)), CATALOGUE_DONE);
    catalogue_make_create(&m, stamp_of(TECHNICIAN, ++technician_seq), "stars", DIMENSION, EUCLIDEAN, 1, NODES, lists);
    expect("catalogue_apply", apply(&m), CATALOGUE_DONE);
    say("Three nodes keep the collection 'stars', under epoch %" PRIu64, map_epoch());
}

/* Only a node in sync can be promoted. The epoch rises, and the primary of before is out of sync. */
static void promote(uint64_t id, uint32_t expected)
{
    struct catalogue_message m;
    catalogue_make_change(&m, stamp_of(TECHNICIAN, ++technician_seq), CATALOGUE_COMMAND_PROMOTE, key, id, map_epoch());
    uint32_t said = apply(&m);
    expect("catalogue_apply", said, expected);
    say("The technician promotes node %" PRIu64 ": %s. The epoch is %" PRIu64, id, meaning("catalogue_apply", said),
        map_epoch());
}

/* ---- the story */

static const float near_vega[DIMENSION] = {1, 2, 2};
static const float near_polaris[DIMENSION] = {0, 0, 4};
static const float near_sirius[DIMENSION] = {4, 6, 2};

static void the_dome_opens(void)
{
    printf("\nThe dome opens\n");
    expect("catalogue_empty_map", catalogue_empty_map(LENT(map)), CATALOGUE_DONE);
    for (int i = 0; i < NODES; i++)
        register_node(&nodes[i], (uint64_t)i + 1);
    create_stars();
    heartbeats();
}

/* Lost letters delay an acknowledgement, and that is all that a presenter notices of them. */
static void an_ordinary_hour(void)
{
    chapter("An ordinary hour", "An ordinary hour");
    send_edit("Anna", map_primary(), map_epoch(), star(VEGA, 1, 2, 2), CATALOGUE_DONE);
    send_edit("Ben", map_primary(), map_epoch(), star(SIRIUS, 4, 6, 2), CATALOGUE_DONE);
    run_until(every_edit_is_settled, "the first two edits are not acknowledged");
    search("Dora", map_primary(), map_epoch(), 2, near_vega, CATALOGUE_DONE);
    search("Dora", 3, map_epoch(), 2, near_vega, CATALOGUE_NOT_PRIMARY);
}

/* The edit waits for node 3 until a Shrink has taken that out of the in-sync set. Two are enough to go on. */
static void node_3_is_unplugged(void)
{
    chapter("A cable is pulled", "Node 3 unplugged");
    set_plug(3, 0);
    send_edit("Clara", map_primary(), map_epoch(), star(POLARIS, 0, 0, 5), CATALOGUE_DONE);
    run_until(every_edit_is_settled, "the edit without node 3 is not acknowledged");
    if (!two_are_in_sync())
        give_up("node 3 was not taken out of the in-sync set");
}

/* Node 1 takes Ben's edit while its lease holds. It can neither reach node 2 nor have it shrunk, so that it never
 * acknowledges the edit. When the lease is over it answers nothing more. */
static void node_1_is_unplugged(void)
{
    chapter("The primary is unplugged, with Ben's console on it", "Node 1 unplugged");
    set_plug(1, 0);
    send_edit("Ben", 1, map_epoch(), star(SIRIUS, 7, 10, 2), CATALOGUE_DONE);
    run_until(lease_of_node_1_is_over, "the lease of node 1 does not end");
    search("Ben", 1, map_epoch(), 1, near_sirius, CATALOGUE_NO_LEASE);
}

/* The technician has waited for the end of the old lease: so no two primaries answer at a time. Node 2 is in sync alone
 * at first, and takes edits when node 3 has caught up. */
static void node_2_takes_over(void)
{
    chapter("Node 2 takes over", "Node 2 takes over");
    set_plug(3, 1);
    promote(3, CATALOGUE_REJECTED_NOT_IN_SYNC);
    promote(2, CATALOGUE_DONE);
    heartbeats();
    search("Clara", map_primary(), map_epoch(), 2, near_polaris, CATALOGUE_DONE);
    send_edit("Clara", map_primary(), map_epoch(), star(ALTAIR, 4, 4, 2), CATALOGUE_TOO_FEW_IN_SYNC);
    run_until(two_are_in_sync, "node 3 does not catch up");
    send_edit("Clara", map_primary(), map_epoch(), star(ALTAIR, 4, 4, 2), CATALOGUE_DONE);
    run_until(last_edit_is_settled, "the first edit under the new epoch is not acknowledged");
    for (int i = 0; i < NODES; i++)
        print_log(&nodes[i]);
}

/* Node 1 still believes that it is primary. What reaches it first puts that right: a reply with a later epoch, the map,
 * or node 2's alignment, which cuts off the edit that only node 1 has. Ben was promised nothing, and sends it anew. */
static void node_1_comes_back(void)
{
    chapter("Node 1 comes back", "Node 1 comes back");
    set_plug(1, 1);
    run_until(node_1_is_deposed, "node 1 does not notice that it is deposed");
    send_edit("Ben", map_primary(), map_epoch(), star(SIRIUS, 7, 10, 2), CATALOGUE_DONE);
    run_until(every_edit_is_settled, "Ben's edit, sent anew, is not acknowledged");
    run_until(all_are_in_sync, "node 1 does not catch up");
    send_edit("Dora", map_primary(), map_epoch(), removal(VEGA), CATALOGUE_DONE);
    run_until(every_edit_is_settled, "the last edit is not acknowledged");
    search("Anna", map_primary(), map_epoch(), 3, near_sirius, CATALOGUE_DONE);
}

/* ---- the ending */

static int stands_on(const struct edit *e, const struct node *n)
{
    if (e->offset > entries_of(n))
        return 0;
    struct entry found = entry_at(n, e->offset - 1);
    return found.offset == e->offset && same_op(&found.what, &e->what);
}

static void check_edit(const struct edit *e)
{
    printf("         number %" PRIu64 ", %s: ", e->offset, e->who);
    print_op(&e->what);
    printf("; is on node");
    for (int i = 0; i < NODES; i++) {
        if (!is_in_sync(nodes[i].id))
            continue;
        if (!stands_on(e, &nodes[i]))
            give_up("a node in sync lacks an acknowledged edit");
        printf(" %" PRIu64, nodes[i].id);
    }
    printf("\n");
}

/* Of all that was taken, only Ben's first try was never acknowledged. */
static void every_acknowledged_edit_is_there(void)
{
    int acknowledged = 0;
    printf("\nWhat the logs hold\n");
    for (int i = 0; i < NODES; i++)
        print_log(&nodes[i]);
    for (int i = 0; i < edit_count; i++) {
        if (edits[i].became != ACKNOWLEDGED)
            continue;
        check_edit(&edits[i]);
        acknowledged++;
    }
    if (acknowledged != edit_count - 1)
        give_up("fewer edits were acknowledged than the story has");
    if (lone_copies == 0)
        give_up("no lone older entry went as CopyShard");
    printf("         plugged cables lost %d letters; turned down were", letters_lost);
    for (int i = 0; i < NODES; i++)
        printf(" %" PRIu32 " by node %" PRIu64, catalogue_u32(nodes[i].refused), nodes[i].id);
    printf("\n\nEvery acknowledged edit is on every node in sync.\n");
}

int main(int argc, char **argv)
{
    the_dome_opens();
    an_ordinary_hour();
    node_3_is_unplugged();
    node_1_is_unplugged();
    node_2_takes_over();
    node_1_comes_back();
    every_acknowledged_edit_is_there();
    if (argc > 1 && picture_write(argv[1]) != 0)
        give_up("the picture cannot be written");
    return 0;
}
