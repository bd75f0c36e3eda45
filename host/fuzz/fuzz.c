/* fuzz: every entry point on random and mutated buffers of every length. It ends with a line for each call, or with the
 * first thing that is wrong: a fault, a call that does not end, a refused call that changed a byte, an answer that
 * catalogue.h does not list.
 *
 *     fuzz [CALLS [SEED]]        so many calls of each entry point, 1,000,000 by default
 *
 * Each buffer ends where a page begins that nobody may touch, so that reading or writing past it is a fault. The stores
 * are mapped twice, once for reading alone: a call gets that view first. If it returns, it has written no byte of them;
 * if it wants to write it is stopped, put back and made again on the other view, and must then say that it is done.
 */
#define _GNU_SOURCE
#include "catalogue.h"
#include "catalogue_images.h"
#include "catalogue_messages.h"

#include <inttypes.h>
#include <pthread.h>
#include <setjmp.h>
#include <signal.h>
#include <stdbool.h>
#include <stdio.h>
#include <stdlib.h>
#include <sys/mman.h>
#include <unistd.h>

enum { PAGE = 4096, SECONDS_A_CALL = 20, ENTRIES = 40, MUTATIONS = 4 };

/* The dome has two shards, and a NewEpoch may begin a third. */
enum { SLOTS_USED = 3 };

_Noreturn static void fail(const char *call, const char *what, uint64_t number)
{
    fprintf(stderr, "fuzz: %s: %s (%" PRIu64 ")\n", call, what, number);
    exit(EXIT_FAILURE);
}

/* ---- random numbers, the same for one seed */

static uint64_t state;

static uint64_t random_u64(void)
{
    state += 0x9E3779B97F4A7C15u;
    uint64_t z = state;
    z = (z ^ z >> 30) * 0xBF58476D1CE4E5B9u;
    z = (z ^ z >> 27) * 0x94D049BB133111EBu;
    return z ^ z >> 31;
}

static size_t below(size_t n)
{
    return n == 0 ? 0 : (size_t)(random_u64() % n);
}

static bool one_in(size_t n)
{
    return below(n) == 0;
}

/* Small numbers and those near the ends of the ranges; all others now and then. */
static uint64_t any_number(void)
{
    static const uint64_t edges[] = {0, 1, 2, 3, UINT64_MAX, UINT64_MAX - 1, 1ull << 62, (1ull << 62) + 1, 1ull << 63};
    switch (below(3)) {
    case 0:
        return below(8);
    case 1:
        return edges[below(sizeof edges / sizeof edges[0])];
    default:
        return random_u64();
    }
}

/* ---- buffers that end at a page which nobody may touch */

struct buffer {
    uint8_t *end;
    size_t most;
    uint8_t *at; /* what the call gets */
    size_t length;
    uint8_t *before; /* its bytes before the call */
};

static size_t whole_pages(size_t n)
{
    return (n + PAGE - 1) / PAGE * PAGE;
}

static uint8_t *reserve(size_t size)
{
    uint8_t *start = mmap(NULL, size + PAGE, PROT_NONE, MAP_PRIVATE | MAP_ANONYMOUS, -1, 0);
    if (start == MAP_FAILED)
        fail("mmap", "no memory", size);
    return start;
}

static struct buffer make_buffer(size_t most)
{
    size_t size = whole_pages(most);
    uint8_t *start = reserve(size);
    if (mprotect(start, size, PROT_READ | PROT_WRITE) != 0)
        fail("mprotect", "no memory", size);
    struct buffer b = {start + size, most, start + size, 0, malloc(most)};
    if (b.before == NULL)
        fail("malloc", "no memory", most);
    return b;
}

static void set_length(struct buffer *b, size_t length)
{
    b->length = length < b->most ? length : b->most;
    b->at = b->end - b->length;
}

static void empty(struct buffer *b)
{
    set_length(b, 0);
}

static void remember(struct buffer *b)
{
    memcpy(b->before, b->at, b->length);
}

static void put_back(struct buffer *b)
{
    memcpy(b->at, b->before, b->length);
}

static bool is_same(const struct buffer *b)
{
    return memcmp(b->at, b->before, b->length) == 0;
}

/* The bytes given, of which some may be changed, and more or fewer. */
static void fill(struct buffer *b, const uint8_t *bytes, size_t length, bool mutate)
{
    size_t kept = length;
    if (mutate && one_in(3))
        kept = below(length + 1);
    set_length(b, mutate && one_in(8) ? kept + below(4) : kept);
    if (b->length < kept)
        kept = b->length;
    memcpy(b->at, bytes, kept);
    for (size_t i = kept; i < b->length; i++)
        b->at[i] = (uint8_t)random_u64();
    for (size_t n = mutate ? below(MUTATIONS) : 0; n > 0 && b->length > 0; n--)
        b->at[below(b->length)] = (uint8_t)random_u64();
}

static void fill_random(struct buffer *b, size_t length)
{
    set_length(b, length);
    for (size_t i = 0; i < b->length; i += 8) {
        uint64_t bytes = random_u64();
        memcpy(b->at + i, &bytes, b->length - i < 8 ? b->length - i : 8);
    }
}

/* An output: room enough, just enough, too little or none. */
static void set_room(struct buffer *b, size_t wanted)
{
    static const int share[] = {0, 0, 1, 2};
    switch (share[below(4)]) {
    case 0:
        set_length(b, b->most);
        break;
    case 1:
        set_length(b, wanted);
        break;
    default:
        set_length(b, below(b->most + 1));
    }
}

/* ---- the stores, seen twice */

static struct {
    uint8_t *read_only, *writable; /* both views end at a page which nobody may touch */
    uint8_t *saved;
} stores;

static uint8_t *view(int file, int protection)
{
    uint8_t *start = reserve(CATALOGUE_STORES);
    if (mmap(start, CATALOGUE_STORES, protection, MAP_SHARED | MAP_FIXED, file, 0) == MAP_FAILED)
        fail("mmap", "no view of the stores", CATALOGUE_STORES);
    return start;
}

static void make_stores(void)
{
    int file = memfd_create("stores", 0);
    if (file < 0 || ftruncate(file, CATALOGUE_STORES) != 0)
        fail("memfd_create", "no memory", CATALOGUE_STORES);
    stores.read_only = view(file, PROT_READ);
    stores.writable = view(file, PROT_READ | PROT_WRITE);
    stores.saved = malloc(CATALOGUE_STORES);
    if (stores.saved == NULL)
        fail("malloc", "no memory", CATALOGUE_STORES);
}

/* ---- a call that wants to write where it may not */

static sigjmp_buf stopped;
static volatile sig_atomic_t may_stop;

static void on_fault(int signal, siginfo_t *info, void *context)
{
    (void)context;
    uint8_t *at = info->si_addr;
    if (signal == SIGSEGV && may_stop && at >= stores.read_only && at < stores.read_only + CATALOGUE_STORES)
        siglongjmp(stopped, 1);
    static const char said[] = "fuzz: a fault in a call\n";
    (void)!write(STDERR_FILENO, said, sizeof said - 1);
    _exit(EXIT_FAILURE);
}

static void on_alarm(int signal)
{
    (void)signal;
    static const char said[] = "fuzz: a call does not end\n";
    (void)!write(STDERR_FILENO, said, sizeof said - 1);
    _exit(EXIT_FAILURE);
}

static void catch_faults(void)
{
    struct sigaction action = {.sa_sigaction = on_fault, .sa_flags = SA_SIGINFO | SA_NODEFER};
    sigaction(SIGSEGV, &action, NULL);
    sigaction(SIGBUS, &action, NULL);
    signal(SIGALRM, on_alarm);
}

/* ---- a dome to begin with: node 1 leads two shards, node 2 backs both up */

static uint8_t good_map[CATALOGUE_MAP], good_header[2][CATALOGUE_HEADER];
static uint8_t good_stores[CATALOGUE_STORES];
static uint8_t key[CATALOGUE_KEY];
static struct buffer map, header, message, reply, answer, refused, wide, name;

static struct catalogue_stamp next_stamp(void)
{
    static uint64_t n;
    n++;
    struct catalogue_stamp by = {n, 1, n};
    return by;
}

static void must(uint32_t said, const char *what)
{
    if (said != CATALOGUE_DONE)
        fail(what, "the dome to begin with cannot be made", said);
}

static void make_dome(void)
{
    struct catalogue_message m;
    static uint8_t starts[CATALOGUE_STARTS];
    uint8_t lists[CATALOGUE_LISTS], number[CATALOGUE_ANSWER], count[CATALOGUE_REFUSED] = {0};
    must(catalogue_empty_map(good_map, sizeof good_map), "catalogue_empty_map");
    for (uint64_t id = 1; id <= 2; id++) {
        catalogue_make_register(&m, next_stamp(), id, "projector", 1);
        must(catalogue_apply(good_map, sizeof good_map, m.bytes, m.len), "catalogue_apply");
        must(catalogue_fresh_node(good_header[id - 1], CATALOGUE_HEADER, id, 1), "catalogue_fresh_node");
    }
    must(catalogue_place(good_map, sizeof good_map, 2, 2, lists, sizeof lists), "catalogue_place");
    for (int i = 0; i < 4; i++) /* node 1 leads both */
        lists[8 * i] = (uint8_t)(1 + i % 2);
    catalogue_make_create(&m, next_stamp(), "stars", 3, 0, 2, 2, lists);
    must(catalogue_apply(good_map, sizeof good_map, m.bytes, m.len), "catalogue_apply");
    for (int i = 0; i < 2; i++) {
        must(catalogue_show_map(good_header[i], CATALOGUE_HEADER, good_map, sizeof good_map, 2, starts, sizeof starts,
                                number, sizeof number),
             "catalogue_show_map");
        must(catalogue_grant(good_header[i], CATALOGUE_HEADER, 1, 0, 1u << 30), "catalogue_grant");
    }
    for (uint64_t id = 1; id <= ENTRIES; id++) {
        struct catalogue_op op = {CATALOGUE_UPSERT, id % 30, 3, {(float)id, 2, 3}};
        catalogue_make_key(key, "stars", (uint32_t)(id % 2));
        catalogue_make_write(&m, key, 1, &op);
        must(catalogue_write(good_header[0], CATALOGUE_HEADER, good_stores, sizeof good_stores, count, sizeof count, 1,
                             1, m.bytes, m.len, number, sizeof number),
             "catalogue_write");
    }
    catalogue_make_key(key, "stars", 0);
    memcpy(stores.saved, good_stores, CATALOGUE_STORES);
    memcpy(stores.writable, good_stores, CATALOGUE_STORES);
}

/* ---- the images of one trial */

static bool stores_changed; /* since they were last the dome's */

static void renew_stores(void)
{
    if (stores_changed)
        memcpy(stores.writable, stores.saved, SLOTS_USED * CATALOGUE_STORE);
    stores_changed = false;
}

/* Now and then a byte of the used part of a store is another. */
static void damage_stores(void)
{
    static const size_t columns[] = {CATALOGUE_STORE_EPOCHS, CATALOGUE_STORE_OFFSETS, CATALOGUE_STORE_IDS,
                                     CATALOGUE_STORE_CODES,  CATALOGUE_STORE_LENGTHS, CATALOGUE_STORE_PATTERNS,
                                     CATALOGUE_STORE_KEYS,   CATALOGUE_STORE_PLACES};
    if (!one_in(16))
        return;
    size_t column = columns[below(sizeof columns / sizeof columns[0])];
    stores.writable[below(2) * CATALOGUE_STORE + column + below(400)] = (uint8_t)random_u64();
    stores_changed = true;
}

/* Node 1 three times in four, else node 2, which has the header alone and so often a store that is not its own. */
static void renew_node(void)
{
    renew_stores();
    damage_stores();
    fill(&header, good_header[one_in(4)], CATALOGUE_HEADER, one_in(4));
}

static void renew_map(void)
{
    fill(&map, good_map, sizeof good_map, one_in(4));
}

/* ---- messages: well formed ones of the dome, then mutated */

static void any_op(struct catalogue_op *op)
{
    op->code = one_in(3) ? CATALOGUE_DELETE : CATALOGUE_UPSERT;
    op->id = below(40);
    op->count = (uint8_t)(1 + below(CATALOGUE_VECTOR_ROOM));
    for (int i = 0; i < CATALOGUE_VECTOR_ROOM; i++)
        op->vector[i] = one_in(50) ? catalogue_float_of((uint32_t)random_u64()) : (float)below(100);
}

static void finish(struct catalogue_message *m)
{
    if (one_in(8))
        fill_random(&message, below(200));
    else
        fill(&message, m->bytes, m->len, one_in(2));
}

static void any_key(void)
{
    catalogue_make_key(key, one_in(8) ? "planets" : "stars", (uint32_t)below(3));
}

static void begin(struct catalogue_message *m, uint8_t code)
{
    any_key();
    m->len = 0;
    catalogue_put(m, code, 1);
    catalogue_put_key(m, key);
    catalogue_put(m, one_in(3) ? any_number() : 1 + below(2), 8);
}

static void any_write(void)
{
    struct catalogue_message m;
    struct catalogue_op op;
    any_op(&op);
    begin(&m, 0x23);
    catalogue_put_op(&m, &op);
    finish(&m);
}

static void any_search(void)
{
    struct catalogue_message m;
    struct catalogue_op op;
    any_op(&op);
    begin(&m, 0x24);
    catalogue_put(&m, one_in(3) ? any_number() : below(40), 4);
    catalogue_put_vector(&m, op.vector, op.count);
    finish(&m);
}

static void any_replicate(void)
{
    struct catalogue_message m;
    struct catalogue_op op;
    any_op(&op);
    begin(&m, 0x20);
    catalogue_put(&m, one_in(4) ? any_number() : below(ENTRIES), 8);
    catalogue_put_op(&m, &op);
    finish(&m);
}

static void any_new_epoch(void)
{
    struct catalogue_message m;
    size_t pairs = below(4);
    begin(&m, 0x21);
    catalogue_put(&m, one_in(4) ? any_number() : below(ENTRIES), 8);
    catalogue_put(&m, pairs, 2);
    for (size_t i = 0; i < pairs; i++) {
        catalogue_put(&m, i, 8);
        catalogue_put(&m, below(ENTRIES), 8);
    }
    catalogue_put(&m, below(2), 1);
    finish(&m);
}

static void any_copy(void)
{
    struct catalogue_message m;
    size_t count = below(4), first = below(ENTRIES);
    begin(&m, 0x22);
    catalogue_put(&m, count, 2);
    for (size_t i = 0; i < count; i++) {
        struct catalogue_op op;
        any_op(&op);
        catalogue_put(&m, below(3), 8);
        catalogue_put(&m, first + i, 8);
        catalogue_put_op(&m, &op);
    }
    finish(&m);
}

static void any_request(void)
{
    struct catalogue_message m;
    uint8_t lists[CATALOGUE_LISTS];
    for (size_t i = 0; i < sizeof lists; i++)
        lists[i] = i % 8 == 0 ? (uint8_t)(1 + below(3)) : 0;
    struct catalogue_stamp by = {below(100), below(3), below(100)};
    any_key();
    switch (below(6)) {
    case 0:
        catalogue_make_create(&m, by, "planets", (uint32_t)below(3), (uint8_t)below(2), (uint32_t)below(4),
                              (uint32_t)below(3), lists);
        break;
    case 1:
        catalogue_make_drop(&m, by, one_in(2) ? "stars" : "planets");
        break;
    case 2:
        catalogue_make_register(&m, by, below(4), "projector", below(4));
        break;
    case 3:
        catalogue_make_mark_dead(&m, by, below(4), below(3));
        break;
    case 4:
        catalogue_make_add_replica(&m, by, key, below(4), below(3), below(3));
        break;
    default:
        catalogue_make_change(&m, by, (uint8_t)(CATALOGUE_COMMAND_REMOVE + below(4)), key, below(4), below(3));
    }
    finish(&m);
}

static void any_reply(void)
{
    uint8_t bytes[CATALOGUE_REPLY] = {(uint8_t)(0x30 + below(4)), (uint8_t)below(ENTRIES)};
    if (one_in(4))
        for (int i = 0; i < 8; i++)
            bytes[1 + i] = (uint8_t)random_u64();
    fill(&reply, bytes, sizeof bytes, one_in(3));
}

static uint32_t any_shard(void)
{
    static const char stars[] = "stars";
    fill(&name, (const uint8_t *)stars, 5, one_in(6));
    return one_in(8) ? (uint32_t)any_number() : (uint32_t)below(2);
}

/* ---- the calls. Each makes its operands once (`operands`), and may then be made twice (`call`) */

static uint64_t calls = 1000000; /* of each entry point */
static uint64_t numbers[4];
static uint32_t shard;

static void some_numbers(void)
{
    for (size_t i = 0; i < 4; i++)
        numbers[i] = one_in(3) ? any_number() : 1 + below(2);
}

static void outputs(size_t wanted)
{
    set_room(&wide, wanted);
    set_room(&answer, CATALOGUE_ANSWER);
    some_numbers();
}

static void counting(void)
{
    set_length(&refused, one_in(20) ? below(4) : CATALOGUE_REFUSED);
}

#define GIVEN(b) (b).at, (b).length

static size_t lent_length;

static const uint8_t *lent_stores(uint8_t *base)
{
    return base + (CATALOGUE_STORES - lent_length);
}

static void choose_stores(void)
{
    lent_length = one_in(20) ? below(CATALOGUE_STORES + 1) : CATALOGUE_STORES;
}

static void for_empty_map(void)
{
    fill_random(&map, one_in(2) ? CATALOGUE_MAP : below(CATALOGUE_MAP + 1));
}

static uint32_t call_empty_map(uint8_t *base)
{
    (void)base;
    return catalogue_empty_map(GIVEN(map));
}

static void for_fresh_node(void)
{
    fill_random(&header, one_in(2) ? CATALOGUE_HEADER : below(CATALOGUE_HEADER + 1));
    some_numbers();
}

static uint32_t call_fresh_node(uint8_t *base)
{
    (void)base;
    return catalogue_fresh_node(GIVEN(header), numbers[0], numbers[1]);
}

static uint32_t call_apply(uint8_t *base)
{
    (void)base;
    return catalogue_apply(GIVEN(map), GIVEN(message));
}

/* Any room for the words, none too. */
static void for_apply_words(void)
{
    any_request();
    outputs(below(CATALOGUE_WORDS + 1));
}

static uint32_t call_apply_words(uint8_t *base)
{
    (void)base;
    return catalogue_apply_words(GIVEN(map), GIVEN(message), GIVEN(wide), GIVEN(answer));
}

static void for_place(void)
{
    outputs(32);
    for (size_t i = 0; i < 2; i++)
        numbers[i] = one_in(4) ? any_number() : below(4);
}

static uint32_t call_place(uint8_t *base)
{
    (void)base;
    return catalogue_place(GIVEN(map), (uint32_t)numbers[0], (uint32_t)numbers[1], GIVEN(wide));
}

static void for_key(void)
{
    outputs(CATALOGUE_PEERS);
    shard = any_shard();
}

static uint32_t call_replacement(uint8_t *base)
{
    (void)base;
    return catalogue_replacement(GIVEN(map), GIVEN(name), shard, GIVEN(answer));
}

static void for_losses(void)
{
    outputs(2 * (16 + 32));
}

static uint32_t call_losses(uint8_t *base)
{
    (void)base;
    return catalogue_place_losses(GIVEN(map), GIVEN(name), GIVEN(wide), GIVEN(answer));
}

static uint32_t sizes[2];

static void for_counts(void)
{
    uint8_t ids[40] = {0};
    outputs(CATALOGUE_COUNTS);
    shard = any_shard();
    size_t count = below(6);
    for (size_t i = 0; i < count; i++)
        ids[8 * i] = (uint8_t)(one_in(4) ? below(3) : i);
    fill(&message, ids, 8 * count, one_in(4));
    sizes[0] = (uint32_t)(one_in(16) ? any_number() : below(6));
    sizes[1] = (uint32_t)(one_in(16) ? any_number() : below(4));
}

static uint32_t call_count_placements(uint8_t *base)
{
    (void)base;
    return catalogue_count_placements(GIVEN(map), GIVEN(name), (uint32_t)numbers[0], (uint32_t)numbers[1],
                                      (uint32_t)numbers[2], GIVEN(message), sizes[0], sizes[1], GIVEN(wide));
}

static void for_show_map(void)
{
    outputs(2 * CATALOGUE_START);
}

static uint32_t call_show_map(uint8_t *base)
{
    (void)base;
    return catalogue_show_map(GIVEN(header), GIVEN(map), numbers[0], GIVEN(wide), GIVEN(answer));
}

static uint32_t call_grant(uint8_t *base)
{
    (void)base;
    return catalogue_grant(GIVEN(header), numbers[0], numbers[1], numbers[2]);
}

static void for_write(void)
{
    any_write();
    outputs(0);
    counting();
    choose_stores();
}

static uint32_t call_write(uint8_t *base)
{
    return catalogue_write(GIVEN(header), (uint8_t *)lent_stores(base), lent_length, GIVEN(refused), numbers[0],
                           numbers[1], GIVEN(message), GIVEN(answer));
}

static void for_search(void)
{
    any_search();
    outputs(10 * CATALOGUE_HIT);
    counting();
    choose_stores();
}

static uint32_t call_search(uint8_t *base)
{
    return catalogue_search(GIVEN(header), lent_stores(base), lent_length, GIVEN(refused), numbers[0], GIVEN(message),
                            GIVEN(wide), GIVEN(answer));
}

static uint32_t call_wait(uint8_t *base)
{
    (void)base;
    return catalogue_wait(GIVEN(header), GIVEN(name), shard, numbers[0], numbers[1], numbers[2], numbers[3],
                          GIVEN(wide), GIVEN(answer));
}

static void for_replicate(void)
{
    any_replicate();
    set_room(&reply, CATALOGUE_REPLY);
    choose_stores();
}

static void for_new_epoch(void)
{
    any_new_epoch();
    set_room(&reply, CATALOGUE_REPLY);
    choose_stores();
}

static void for_copy(void)
{
    any_copy();
    set_room(&reply, CATALOGUE_REPLY);
    choose_stores();
}

static uint32_t call_replicate(uint8_t *base)
{
    return catalogue_replicate(GIVEN(header), (uint8_t *)lent_stores(base), lent_length, GIVEN(message), GIVEN(reply));
}

static uint32_t call_new_epoch(uint8_t *base)
{
    return catalogue_new_epoch(GIVEN(header), (uint8_t *)lent_stores(base), lent_length, GIVEN(message), GIVEN(reply));
}

static uint32_t call_copy(uint8_t *base)
{
    return catalogue_copy(GIVEN(header), (uint8_t *)lent_stores(base), lent_length, GIVEN(message), GIVEN(reply));
}

static void for_step(void)
{
    for_key();
    set_room(&wide, 2000);
    choose_stores();
}

static uint32_t call_step(uint8_t *base)
{
    return catalogue_step(GIVEN(header), lent_stores(base), lent_length, GIVEN(name), shard, numbers[0], numbers[1],
                          (uint8_t)numbers[2] & 1, GIVEN(wide), GIVEN(answer));
}

static void for_ack(void)
{
    for_key();
    any_reply();
    numbers[2] = one_in(4) ? any_number() : CATALOGUE_STEP_ALIGN + below(3);
}

static uint32_t call_ack(uint8_t *base)
{
    (void)base;
    return catalogue_ack(GIVEN(header), GIVEN(name), shard, numbers[0], numbers[1], (uint8_t)numbers[2], GIVEN(reply));
}

static void for_outcome(void)
{
    for_key();
    numbers[2] = one_in(4) ? any_number() : 0x17 + below(2);
    numbers[3] = one_in(4) ? any_number() : below(2);
}

static uint32_t call_outcome(uint8_t *base)
{
    (void)base;
    return catalogue_outcome(GIVEN(header), GIVEN(name), shard, numbers[0], numbers[1], (uint8_t)numbers[2],
                             (uint8_t)numbers[3]);
}

/* Positions have no image. */
static uint32_t fields[7];
static int64_t place[2];

static void for_position(void)
{
    static const size_t limits[7] = {24, 60, 60000, 2, 91, 60, 60000};
    for (size_t i = 0; i < 7; i++)
        fields[i] = one_in(30) ? (uint32_t)any_number() : (uint32_t)below(limits[i]);
    set_room(&reply, CATALOGUE_POSITION);
}

static uint32_t call_position(uint8_t *base)
{
    (void)base;
    return catalogue_position(fields[0], fields[1], fields[2], fields[3], fields[4], fields[5], fields[6],
                              GIVEN(reply));
}

static void any_place(void)
{
    uint64_t ra = one_in(8) ? any_number() : (one_in(8) ? 1 : 15) * (uint64_t)below(86400001);
    uint64_t dec = one_in(8) ? any_number() : (uint64_t)below(648000002) - 324000001;
    memcpy(&place[0], &ra, sizeof ra);
    memcpy(&place[1], &dec, sizeof dec);
}

static void for_position_fields(void)
{
    any_place();
    set_room(&reply, CATALOGUE_FIELDS);
}

static uint32_t call_position_fields(uint8_t *base)
{
    (void)base;
    return catalogue_position_fields(place[0], place[1], GIVEN(reply));
}

static void for_position_vector(void)
{
    any_place();
    set_room(&reply, CATALOGUE_VECTOR);
}

static uint32_t call_position_vector(uint8_t *base)
{
    (void)base;
    return catalogue_position_vector(place[0], place[1], GIVEN(reply));
}

/* The answers of some shards of a collection, each in order with ids of its own; then mutated. */
static uint32_t of_shards;

static void put_bytes(uint8_t *at, uint64_t number, int size)
{
    for (int i = 0; i < size; i++)
        at[i] = (uint8_t)(number >> 8 * i);
}

static size_t put_hits(uint8_t *at, uint32_t answering)
{
    size_t n = below(8), put = 0;
    uint32_t bits = (uint32_t)below(3);
    uint64_t id = below(40);
    for (; put < n; id++) {
        if (catalogue_shard_of(id, of_shards) != answering)
            continue;
        put_bytes(at + 6 + CATALOGUE_HIT * put, id, 8);
        put_bytes(at + 14 + CATALOGUE_HIT * put, bits, 4);
        bits += (uint32_t)below(3);
        put++;
    }
    put_bytes(at, answering, 4);
    put_bytes(at + 4, n, 2);
    return 6 + CATALOGUE_HIT * n;
}

static void for_join(void)
{
    static uint8_t bytes[17 * (6 + 8 * CATALOGUE_HIT)];
    size_t length = 0;
    of_shards = one_in(30) ? (uint32_t)any_number() % 17 : 1 + (uint32_t)below(16);
    for (uint32_t s = 0; s < (one_in(40) ? 17 : of_shards); s++)
        if (!one_in(6))
            length += put_hits(bytes + length, of_shards == 0 ? 0 : s % of_shards);
    fill(&message, bytes, length, one_in(3));
    set_room(&wide, CATALOGUE_HIT * 12);
    set_room(&answer, CATALOGUE_ANSWER);
    numbers[0] = one_in(4) ? any_number() : below(100);
}

static uint32_t call_join(uint8_t *base)
{
    (void)base;
    return catalogue_join(of_shards, (uint32_t)numbers[0], GIVEN(message), GIVEN(wide), GIVEN(answer));
}

static bool is_of_join(uint32_t said)
{
    return said == CATALOGUE_UNDECODABLE || said == CATALOGUE_OUT_OF_ORDER || said == CATALOGUE_WRONG_SHARD ||
           said == CATALOGUE_NO_ROOM;
}

/* ---- the two calls that are lent nothing: any numbers are an answer, and there is no refusal */

static void try_numbers(void)
{
    for (uint64_t i = 0; i < calls; i++) {
        uint64_t id = any_number();
        uint32_t shards = (uint32_t)any_number(), said = catalogue_shard_of(id, shards);
        if (said >= (shards == 0 ? 1 : shards))
            fail("catalogue_shard_of", "answered a shard that the collection does not have", said);
    }
    printf("%-22s %" PRIu64 " calls\n", "catalogue_shard_of", calls);
    if (catalogue_version() != CATALOGUE_VERSION)
        fail("catalogue_version", "is another one than the header's", catalogue_version());
}

struct entry {
    const char *name;
    enum { OF_NONE = 0, OF_MAP = 1, OF_NODE = 2, OF_BOTH = 3 } whose; /* which images it gets */
    void (*operands)(void);
    uint32_t (*call)(uint8_t *stores);
    uint32_t most_done; /* the largest answer that is no refusal */
};

static const struct entry entries[] = {
    {"catalogue_empty_map", OF_MAP, for_empty_map, call_empty_map, 0},
    {"catalogue_fresh_node", OF_NODE, for_fresh_node, call_fresh_node, 0},
    {"catalogue_apply", OF_MAP, any_request, call_apply, 16},
    {"catalogue_apply_words", OF_MAP, for_apply_words, call_apply_words, 16},
    {"catalogue_place", OF_MAP, for_place, call_place, 1},
    {"catalogue_replacement", OF_MAP, for_key, call_replacement, 1},
    {"catalogue_place_losses", OF_MAP, for_losses, call_losses, 0},
    {"catalogue_count_placements", OF_MAP, for_counts, call_count_placements, 0},
    {"catalogue_show_map", OF_BOTH, for_show_map, call_show_map, 0},
    {"catalogue_grant", OF_NODE, some_numbers, call_grant, 0},
    {"catalogue_write", OF_NODE, for_write, call_write, 0},
    {"catalogue_search", OF_NODE, for_search, call_search, 0},
    {"catalogue_wait", OF_NODE, for_key, call_wait, 1},
    {"catalogue_replicate", OF_NODE, for_replicate, call_replicate, 0},
    {"catalogue_new_epoch", OF_NODE, for_new_epoch, call_new_epoch, 0},
    {"catalogue_copy", OF_NODE, for_copy, call_copy, 0},
    {"catalogue_step", OF_NODE, for_step, call_step, CATALOGUE_STEP_COPY},
    {"catalogue_ack", OF_NODE, for_ack, call_ack, 1},
    {"catalogue_outcome", OF_NODE, for_outcome, call_outcome, 0},
    {"catalogue_position", OF_NONE, for_position, call_position, 0},
    {"catalogue_position_fields", OF_NONE, for_position_fields, call_position_fields, 0},
    {"catalogue_position_vector", OF_NONE, for_position_vector, call_position_vector, 0},
    {"catalogue_join", OF_NONE, for_join, call_join, 0},
};

/* ---- one trial */

static struct buffer *const buffers[] = {&map, &header, &message, &reply, &answer, &refused, &wide, &name};
enum { BUFFERS = sizeof buffers / sizeof buffers[0] };

static void for_all(void (*act)(struct buffer *))
{
    for (size_t i = 0; i < BUFFERS; i++)
        act(buffers[i]);
}

/* 18 alone writes: the own epoch, into an answer of eight bytes. The count is looked at apart. */
static void check_refused(const struct entry *e, uint32_t said)
{
    bool listed = said >= CATALOGUE_UNKNOWN_SHARD && said <= CATALOGUE_NO_WORKER;
    if (e->whose == OF_NONE)
        listed = said == CATALOGUE_NO_ROOM || said == CATALOGUE_OUT_OF_RANGE || said == CATALOGUE_NO_THOUSANDTH;
    if (e->call == call_apply_words)
        listed = listed || said == CATALOGUE_SHORT_TEXT;
    if (e->call == call_join)
        listed = is_of_join(said);
    if (e->call == call_count_placements)
        listed = listed || said == CATALOGUE_TOO_MANY || said == CATALOGUE_TOO_WIDE;
    if (!listed)
        fail(e->name, "answered what catalogue.h does not list", said);
    for (size_t i = 0; i < BUFFERS; i++) {
        bool told = buffers[i] == &answer && said == CATALOGUE_NOT_PRIMARY;
        if (buffers[i] != &refused && !told && !is_same(buffers[i]))
            fail(e->name, "was refused and changed a byte", said);
    }
}

/* One more for each refused Write or Search, if the count has its four bytes. */
static void check_count(const struct entry *e, bool was_refused)
{
    bool counts = (e->call == call_write || e->call == call_search) && refused.length >= CATALOGUE_REFUSED;
    uint32_t before = counts ? catalogue_u32(refused.before) : 0;
    uint32_t due = was_refused && before < UINT32_MAX ? before + 1 : before;
    if (counts ? catalogue_u32(refused.at) != due : !is_same(&refused))
        fail(e->name, "left another count of refused calls", due);
}

static uint32_t make_call(const struct entry *e)
{
    may_stop = 1;
    if (sigsetjmp(stopped, 0) == 0) {
        uint32_t said = e->call(stores.read_only);
        may_stop = 0;
        return said;
    }
    may_stop = 0;
    for_all(put_back);
    stores_changed = true;
    uint32_t said = e->call(stores.writable);
    if (said > e->most_done)
        fail(e->name, "was refused and wrote to the stores", said);
    return said;
}

static bool try_once(const struct entry *e)
{
    for_all(empty);
    if (e->whose & OF_MAP)
        renew_map();
    if (e->whose & OF_NODE)
        renew_node();
    e->operands();
    for_all(remember);
    uint32_t said = make_call(e);
    bool was_refused = said > e->most_done;
    if (was_refused)
        check_refused(e, said);
    check_count(e, was_refused);
    return !was_refused;
}

static void try_entry(const struct entry *e)
{
    uint64_t done = 0;
    for (uint64_t i = 0; i < calls; i++) {
        if (i % 1000 == 0)
            alarm(SECONDS_A_CALL);
        if (try_once(e))
            done++;
    }
    alarm(0);
    printf("%-26s %" PRIu64 " calls, %" PRIu64 " refused\n", e->name, calls, calls - done);
    fflush(stdout);
    if (done == 0 || done == calls)
        fail(e->name, "was never refused, or always", done);
}

/* ---- all calls, on a stack of their own that is painted first: how deep the paint is gone tells what they used */

enum { STACK = 8 << 20, PAINT = 0xA5 };

static void *try_all(void *unused)
{
    (void)unused;
    for (size_t i = 0; i < sizeof entries / sizeof entries[0]; i++)
        try_entry(&entries[i]);
    try_numbers();
    return NULL;
}

static void try_on_a_stack(void)
{
    uint8_t *stack = reserve(STACK);
    pthread_attr_t where;
    pthread_t thread;
    if (mprotect(stack, STACK, PROT_READ | PROT_WRITE) != 0)
        fail("mprotect", "no memory", STACK);
    memset(stack, PAINT, STACK);
    pthread_attr_init(&where);
    if (pthread_attr_setstack(&where, stack, STACK) != 0 || pthread_create(&thread, &where, try_all, NULL) != 0)
        fail("pthread_create", "no thread", STACK);
    pthread_join(thread, NULL);
    size_t left = 0;
    while (left < STACK && stack[left] == PAINT)
        left++;
    printf("the calls used %zu bytes of stack at most\n", STACK - left);
    if (STACK - left > CATALOGUE_STACK)
        fail("CATALOGUE_STACK", "is less than the calls used", STACK - left);
}

static uint64_t number_of(const char *text)
{
    char *end;
    uint64_t number = strtoull(text, &end, 10);
    if (*text < '0' || *text > '9' || *end != 0) {
        fprintf(stderr, "fuzz: '%s' is no whole number\nusage: fuzz [CALLS [SEED]]\n", text);
        exit(EXIT_FAILURE);
    }
    return number;
}

int main(int argc, char **argv)
{
    if (argc > 1)
        calls = number_of(argv[1]);
    state = argc > 2 ? number_of(argv[2]) : 1;
    make_stores();
    catch_faults();
    make_dome();
    map = make_buffer(CATALOGUE_MAP + 8);
    header = make_buffer(CATALOGUE_HEADER + 8);
    message = make_buffer(CATALOGUE_MESSAGE_ROOM + 8);
    reply = make_buffer(64);
    answer = make_buffer(64);
    refused = make_buffer(16);
    wide = make_buffer(CATALOGUE_REQUEST);
    name = make_buffer(64);
    try_on_a_stack();
    puts("no fault, no call without an end, and no refused call changed a byte");
    return EXIT_SUCCESS;
}
