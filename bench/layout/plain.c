/* The plain decoder: see plain.h. A reader with a position, in the usual way: each step tests that its bytes are there. */
#include "plain.h"

#include <string.h>

struct in {
    const uint8_t *s;
    size_t n, at;
    int bad;
};

static inline uint64_t number(struct in *in, size_t width)
{
    uint64_t v = 0;
    if (in->n - in->at < width) {
        in->bad = 1;
        return 0;
    }
    memcpy(&v, in->s + in->at, width); /* least significant byte first, as on the machines that this is measured on */
    in->at += width;
    return v;
}

static inline struct part text(struct in *in, size_t most)
{
    struct part p = {0, 0};
    const uint8_t *s = in->s + in->at;
    if (in->n - in->at < 1 + most || most < s[0]) {
        in->bad = 1;
        return p;
    }
    size_t len = s[0];
    unsigned bad = 0;
    for (size_t i = 0; i < len; i++)
        bad |= (uint8_t)(s[1 + i] - 0x20) > 0x5E;
    for (size_t i = len; i < most; i++)
        bad |= s[1 + i];
    if (bad)
        in->bad = 1;
    p.at = in->at + 1;
    p.len = len;
    in->at += 1 + most;
    return p;
}

static inline struct key key(struct in *in)
{
    struct key k;
    k.name = text(in, 32);
    k.shard = number(in, 4);
    return k;
}

/* a count of `width` bytes between lo and hi, and that many items of `each` bytes */
static inline struct part run(struct in *in, size_t width, uint64_t lo, uint64_t hi, size_t each)
{
    struct part p = {0, 0};
    uint64_t count = number(in, width);
    if (in->bad || count < lo || hi < count || in->n - in->at < count * each) {
        in->bad = 1;
        return p;
    }
    p.at = in->at;
    p.len = count;
    in->at += count * each;
    return p;
}

static inline struct op op(struct in *in)
{
    struct op o = {0, 0, {0, 0}};
    o.code = number(in, 1);
    if (o.code != 1 && o.code != 2) {
        in->bad = 1;
        return o;
    }
    o.id = number(in, 8);
    if (o.code == 1)
        o.vector = run(in, 1, 1, 32, 4);
    return o;
}

static struct part entries(struct in *in)
{
    struct part p = {0, 0};
    uint64_t count = number(in, 2);
    if (in->bad || 256 < count) {
        in->bad = 1;
        return p;
    }
    p.at = in->at;
    p.len = count;
    for (uint64_t i = 0; i < count && !in->bad; i++) {
        number(in, 8);
        number(in, 8);
        op(in);
    }
    return p;
}

static struct part placement(struct in *in)
{
    struct part p = {0, 0};
    uint64_t count = number(in, 1);
    if (in->bad || 16 < count) {
        in->bad = 1;
        return p;
    }
    p.at = in->at;
    p.len = count;
    for (uint64_t i = 0; i < count && !in->bad; i++)
        run(in, 1, 0, 8, 8);
    return p;
}

static uint8_t metric(struct in *in)
{
    uint8_t m = number(in, 1);
    if (1 < m)
        in->bad = 1;
    return m;
}

static void command(struct in *in, struct command *c)
{
    c->code = number(in, 1);
    switch (in->bad ? 0 : c->code) {
    case 0x10:
        c->name = text(in, 32);
        if (in->bad)
            return;
        c->dimension = number(in, 4);
        c->metric = metric(in);
        c->shards = number(in, 4);
        c->replication = number(in, 4);
        c->list = placement(in);
        return;
    case 0x11:
        c->name = text(in, 32);
        return;
    case 0x12:
        c->node = number(in, 8);
        if (in->bad)
            return;
        c->name = text(in, 64);
        c->incarnation = number(in, 8);
        return;
    case 0x13:
        c->node = number(in, 8);
        c->incarnation = number(in, 8);
        return;
    case 0x14:
        c->key = key(in);
        c->node = number(in, 8);
        c->incarnation = number(in, 8);
        c->epoch = number(in, 8);
        return;
    case 0x15:
    case 0x16:
    case 0x17:
    case 0x18:
        c->key = key(in);
        c->node = number(in, 8);
        c->epoch = number(in, 8);
        return;
    case 0x19:
        c->list = run(in, 2, 0, 1024, 1);
        return;
    default:
        in->bad = 1;
    }
}

void plain_read(struct message *m, const uint8_t *s, size_t n)
{
    struct in in = {s, n, 0, 0};
    m->code = number(&in, 1);
    switch (in.bad ? 0 : m->code) {
    case 0x01:
        m->index = number(&in, 8);
        m->client = number(&in, 8);
        m->seq = number(&in, 8);
        command(&in, &m->command);
        break;
    case 0x20:
        m->key = key(&in);
        m->epoch = number(&in, 8);
        m->number = number(&in, 8);
        m->op = op(&in);
        break;
    case 0x21:
        m->key = key(&in);
        m->epoch = number(&in, 8);
        m->number = number(&in, 8);
        m->items = run(&in, 2, 0, 1024, 16);
        m->metric = metric(&in);
        break;
    case 0x22:
        m->key = key(&in);
        m->epoch = number(&in, 8);
        m->items = entries(&in);
        break;
    case 0x23:
        m->key = key(&in);
        m->epoch = number(&in, 8);
        m->op = op(&in);
        break;
    case 0x24:
        m->key = key(&in);
        m->epoch = number(&in, 8);
        m->k = number(&in, 4);
        m->items = run(&in, 1, 1, 32, 4);
        break;
    case 0x30:
    case 0x31:
    case 0x32:
    case 0x33:
        m->number = number(&in, 8);
        break;
    default:
        in.bad = 1;
    }
    if (in.bad || in.at != in.n)
        m->code = 0;
}

static uint64_t of_part(struct part p)
{
    return p.at ^ p.len;
}

static uint64_t of_key(struct key k)
{
    return of_part(k.name) ^ k.shard;
}

static uint64_t of_op(struct op o)
{
    return o.code == 1 ? 1 ^ o.id ^ of_part(o.vector) : 2 ^ o.id;
}

static uint64_t of_command(const struct command *c)
{
    switch (c->code) {
    case 0x10:
        return 0x10 ^ of_part(c->name) ^ c->dimension ^ c->metric ^ c->shards ^ c->replication ^ of_part(c->list);
    case 0x11:
        return 0x11 ^ of_part(c->name);
    case 0x12:
        return 0x12 ^ c->node ^ of_part(c->name) ^ c->incarnation;
    case 0x13:
        return 0x13 ^ c->node ^ c->incarnation;
    case 0x14:
        return 0x14 ^ of_key(c->key) ^ c->node ^ c->incarnation ^ c->epoch;
    case 0x19:
        return 0x19 ^ of_part(c->list);
    default:
        return c->code ^ of_key(c->key) ^ c->node ^ c->epoch;
    }
}

uint64_t plain_decode(const uint8_t *s, size_t n)
{
    struct message m;
    plain_read(&m, s, n);
    switch (m.code) {
    case 0:
        return 0;
    case 0x01:
        return 0x0100 ^ m.index ^ m.client ^ m.seq ^ of_command(&m.command);
    case 0x20:
        return 0x2000 ^ of_key(m.key) ^ m.epoch ^ m.number ^ of_op(m.op);
    case 0x21:
        return 0x2100 ^ of_key(m.key) ^ m.epoch ^ m.number ^ of_part(m.items) ^ m.metric;
    case 0x22:
        return 0x2200 ^ of_key(m.key) ^ m.epoch ^ of_part(m.items);
    case 0x23:
        return 0x2300 ^ of_key(m.key) ^ m.epoch ^ of_op(m.op);
    case 0x24:
        return 0x2400 ^ of_key(m.key) ^ m.epoch ^ m.k ^ of_part(m.items);
    default:
        return ((uint64_t)m.code << 8) ^ m.number;
    }
}
