/* bench-layout: bytes decoded a second, by the engine's reader (crate wire_read, through crate bench_wire) and by the plain C
 * decoder, for each kind of message. Both are first held to each other on every input, whole and with a byte changed,
 * and on the records of the files that the command line names. Then they take turns: a turn is a row of 64 messages
 * several times over, and the medians of many turns are compared. */
#define _POSIX_C_SOURCE 200809L
#include "plain.h"

#include <stdio.h>
#include <stdlib.h>
#include <string.h>
#include <time.h>

/* crates/bench_wire: a slice is a pointer and a length */
uint64_t engine_decode(const uint8_t *s, size_t n);

typedef uint64_t decoder(const uint8_t *, size_t);

enum { ROW = 64, TURNS = 401, WARM = 40, MOST = 65536 };

static const double TURN_NS = 300000;

/* ---- the messages */

struct out {
    uint8_t *s;
    size_t at;
};

static uint64_t state = 1;

static uint64_t any(void) /* SplitMix64 */
{
    uint64_t z = state += 0x9E3779B97F4A7C15u;
    z = (z ^ (z >> 30)) * 0xBF58476D1CE4E5B9u;
    z = (z ^ (z >> 27)) * 0x94D049BB133111EBu;
    return z ^ (z >> 31);
}

static void put(struct out *o, uint64_t v, size_t width)
{
    memcpy(o->s + o->at, &v, width);
    o->at += width;
}

static void put_name(struct out *o)
{
    size_t len = 1 + any() % 32;
    put(o, len, 1);
    for (size_t i = 0; i < 32; i++)
        put(o, i < len ? 'a' + any() % 26 : 0, 1);
}

static void put_key(struct out *o, uint8_t code)
{
    put(o, code, 1);
    put_name(o);
    put(o, any() % 16, 4);
    put(o, 1 + any() % 100, 8); /* epoch */
}

static void put_vector(struct out *o, size_t count)
{
    put(o, count, 1);
    for (size_t i = 0; i < count; i++)
        put(o, 0x3F800000u + any() % 0x800000u, 4);
}

static void put_op(struct out *o, int delete, size_t count)
{
    put(o, delete ? 2 : 1, 1);
    put(o, any(), 8);
    if (!delete)
        put_vector(o, count);
}

static size_t make(uint8_t *s, uint8_t code)
{
    struct out o = {s, 0};
    switch (code) {
    case 0x01: /* Create with 8 lists of 3 nodes */
        put(&o, 0x01, 1);
        for (int i = 0; i < 3; i++)
            put(&o, any(), 8);
        put(&o, 0x10, 1);
        put_name(&o);
        put(&o, 32, 4);
        put(&o, any() % 2, 1);
        put(&o, 8, 4);
        put(&o, 3, 4);
        put(&o, 8, 1);
        for (int i = 0; i < 8; i++) {
            put(&o, 3, 1);
            for (int j = 0; j < 3; j++)
                put(&o, any(), 8);
        }
        break;
    case 0x20:
        put_key(&o, code);
        put(&o, any(), 8);
        put_op(&o, any() % 4 == 0, 32);
        break;
    case 0x21:
        put_key(&o, code);
        put(&o, 1024, 8);
        put(&o, 1024, 2);
        for (int i = 0; i < 1024; i++) {
            put(&o, i + 1, 8);
            put(&o, i + 1, 8);
        }
        put(&o, any() % 2, 1);
        break;
    case 0x22:
        put_key(&o, code);
        put(&o, 256, 2);
        for (int i = 0; i < 256; i++) {
            put(&o, 7, 8);
            put(&o, i + 1, 8);
            put_op(&o, any() % 4 == 0, 32);
        }
        break;
    case 0x23:
        put_key(&o, code);
        put_op(&o, any() % 4 == 0, 32);
        break;
    case 0x24:
        put_key(&o, code);
        put(&o, 10, 4);
        put_vector(&o, 32);
        break;
    default:
        put(&o, code, 1);
        put(&o, any(), 8);
    }
    return o.at;
}

/* ---- both say the same */

static unsigned long compared, decoded;

static void compare(const uint8_t *s, size_t n)
{
    uint64_t a = engine_decode(s, n), b = plain_decode(s, n);
    if (a != b) {
        fprintf(stderr, "bench-layout: the decoders differ on a message of %zu bytes with the code %02x\n", n, n ? s[0] : 0);
        exit(1);
    }
    compared++;
    decoded += a != 0;
}

static void compare_changed(const uint8_t *s, size_t n)
{
    static uint8_t t[MOST];
    memcpy(t, s, n);
    compare(t, n);
    for (size_t i = 0; i < n && i < 512; i++) {
        uint8_t was = t[i];
        t[i] = any();
        compare(t, n);
        t[i] = was;
        compare(t, i);
    }
}

static void compare_file(const char *name)
{
    static uint8_t t[MOST];
    uint8_t head[2];
    FILE *f = fopen(name, "rb");
    if (!f) {
        perror(name);
        exit(1);
    }
    while (fread(head, 1, 2, f) == 2) {
        size_t n = head[0] + 256 * (size_t)head[1];
        if (fread(t, 1, n, f) != n)
            break;
        compare(t, n);
    }
    fclose(f);
}

/* ---- time, of this thread alone: what others do on the machine is not counted */

static uint8_t messages[ROW * MOST]; /* one after the other, as a row of requests would stand */
static uint8_t *row[ROW];
static size_t length[ROW];
static volatile uint64_t kept;

static double turn(decoder *d, int times)
{
    struct timespec a, b;
    uint64_t sum = 0;
    clock_gettime(CLOCK_THREAD_CPUTIME_ID, &a);
    for (int t = 0; t < times; t++)
        for (int i = 0; i < ROW; i++)
            sum += d(row[i], length[i]);
    clock_gettime(CLOCK_THREAD_CPUTIME_ID, &b);
    kept = sum;
    return (b.tv_sec - a.tv_sec) * 1e9 + (b.tv_nsec - a.tv_nsec);
}

static int by_size(const void *a, const void *b)
{
    double x = *(const double *)a, y = *(const double *)b;
    return (x > y) - (x < y);
}

static void kind(const char *name, uint8_t code)
{
    static double ns[2][TURNS], ratio[TURNS];
    decoder *d[2] = {engine_decode, plain_decode};
    size_t bytes = 0;
    for (int i = 0; i < ROW; i++) {
        row[i] = messages + bytes;
        length[i] = make(row[i], code);
        bytes += length[i];
        compare_changed(row[i], length[i]);
    }
    double once = turn(plain_decode, 100) / 100;
    int times = once < TURN_NS ? (int)(TURN_NS / once) : 1;
    for (int t = -WARM; t < TURNS; t++) {
        double x[2];
        for (int j = 0; j < 2; j++) {
            int k = (t + j) & 1; /* who goes first changes */
            x[k] = turn(d[k], times) / times / ROW;
        }
        if (t < 0)
            continue;
        ns[0][t] = x[0];
        ns[1][t] = x[1];
        ratio[t] = x[1] / x[0];
    }
    for (int k = 0; k < 2; k++)
        qsort(ns[k], TURNS, sizeof(double), by_size);
    qsort(ratio, TURNS, sizeof(double), by_size);
    double each = (double)bytes / ROW, e = ns[0][TURNS / 2], p = ns[1][TURNS / 2];
    printf("| %-24s | %8.0f | %8.1f | %8.1f | %8.0f | %8.0f | %5.2f | %5.2f to %5.2f |\n", name, each, e, p, each / e * 1e3,
           each / p * 1e3, ratio[TURNS / 2], ratio[TURNS / 20], ratio[TURNS - 1 - TURNS / 20]);
}

int main(int argc, char **argv)
{
    static const struct {
        const char *name;
        uint8_t code;
    } kinds[] = {
        {"01 Create, 8 lists of 3", 0x01}, {"20 Replicate", 0x20}, {"21 with 1,024 pairs", 0x21}, {"22 with 256 entries", 0x22},
        {"23 Write", 0x23},                {"24 Search", 0x24},    {"30 Stored", 0x30},
    };
    for (int i = 1; i < argc; i++)
        compare_file(argv[i]);
    printf("| kind                     | bytes    | ns       | ns       | MB/s     | MB/s     | ratio | 5%% to 95%%     |\n");
    printf("|                          |          | engine   | plain C  | engine   | plain C  |       |               |\n");
    printf("|---|---|---|---|---|---|---|---|\n");
    for (size_t i = 0; i < sizeof kinds / sizeof *kinds; i++)
        kind(kinds[i].name, kinds[i].code);
    printf("\nratio: the time of plain C over the engine's, above 1 where the engine is faster: the median of %d turns, and the\n"
           "middle nine tenths of them. Both decoders agree on %lu messages and damaged messages, of which %lu decode.\n",
           TURNS, compared, decoded);
    return 0;
}
