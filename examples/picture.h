/* A run of the dome as a space-time diagram: time runs to the right, each node is a line, letters are arrows between
 * them.
 *
 * examples/dome.c notes what happens, by picture_letter and so on, and picture_write makes an SVG file of it at the
 * end. Nothing here calls the engine. All times are multiples of one tick; ticks in which nothing happens are drawn
 * narrower.
 */
#ifndef CATALOGUE_EXAMPLES_PICTURE_H
#define CATALOGUE_EXAMPLES_PICTURE_H

#include <stdint.h>
#include <stdio.h>

enum { PICTURE_NODES = 3, PICTURE_TICKS = 512, PICTURE_NOTES = 1024 };

/* ---- what was noted */

enum picture_fate { PICTURE_ARRIVED, PICTURE_LOST, PICTURE_UNPLUGGED };

/* Kinds of notes: one from a lane to another, one along a lane, a title. A lane is a node's id, 0 the map's. */
enum picture_kind { PICTURE_REQUEST, PICTURE_REPLY, PICTURE_PROPOSAL, PICTURE_EDIT, PICTURE_CHAPTER };

struct picture_note {
    enum picture_kind kind;
    unsigned begins, ends; /* in ticks */
    unsigned from, to;     /* lanes */
    int good;              /* arrived, applied, acknowledged */
    const char *words;
};

/* How things stand after a tick; a bit for each node. */
struct picture_moment {
    int seen, busy;
    uint64_t epoch;
    unsigned in_sync, leads, unplugged;
};

static struct picture_note picture_notes[PICTURE_NOTES];
static struct picture_moment picture_moments[PICTURE_TICKS];
static unsigned picture_count, picture_ticks;

static void picture_busy(unsigned at)
{
    if (at < PICTURE_TICKS)
        picture_moments[at].busy = 1;
}

static void picture_add(enum picture_kind kind, unsigned begins, unsigned ends, unsigned from, unsigned to, int good,
                        const char *words)
{
    struct picture_note n = {kind, begins, ends, from, to, good, words};
    if (picture_count < PICTURE_NOTES && begins < PICTURE_TICKS && ends < PICTURE_TICKS)
        picture_notes[picture_count++] = n;
}

/* A letter that was under way for one tick. To or from an unplugged node none arrives, and that is no news. */
static void picture_letter(int is_reply, unsigned sent, unsigned from, unsigned to, enum picture_fate fate)
{
    if (fate != PICTURE_UNPLUGGED)
        picture_busy(sent);
    picture_add(is_reply ? PICTURE_REPLY : PICTURE_REQUEST, sent, sent + 1, from, to, fate == PICTURE_ARRIVED, NULL);
}

static void picture_proposal(unsigned since, unsigned decided, unsigned node, int applied, const char *words)
{
    picture_busy(since);
    picture_busy(decided);
    picture_add(PICTURE_PROPOSAL, since, decided, node, 0, applied, words);
}

static void picture_edit(unsigned taken, unsigned settled, unsigned node, int acknowledged, const char *words)
{
    picture_busy(taken);
    picture_busy(settled);
    picture_add(PICTURE_EDIT, taken, settled, node, node, acknowledged, words);
}

static void picture_chapter(unsigned at, const char *words)
{
    picture_busy(at);
    picture_add(PICTURE_CHAPTER, at, at, 0, 0, 1, words);
}

static void picture_moment(unsigned at, uint64_t epoch, unsigned in_sync, unsigned leads, unsigned unplugged)
{
    struct picture_moment *m = &picture_moments[at < PICTURE_TICKS ? at : PICTURE_TICKS - 1];
    m->seen = 1;
    m->epoch = epoch;
    m->in_sync = in_sync;
    m->leads = leads;
    m->unplugged = unplugged;
    if (at < PICTURE_TICKS && at + 1 > picture_ticks)
        picture_ticks = at + 1;
}

/* ---- where things stand on the page */

enum { PICTURE_LEFT = 84, PICTURE_BUSY = 27, PICTURE_MAP_LANE = 92, PICTURE_LANES = 96, PICTURE_TOP = 60 };
static const double picture_idle = 2.5;

static double picture_x(unsigned at)
{
    double x = PICTURE_LEFT;
    for (unsigned i = 0; i < at; i++)
        x += picture_moments[i].busy ? (double)PICTURE_BUSY : picture_idle;
    return x;
}

static double picture_y(unsigned lane)
{
    return PICTURE_MAP_LANE + (lane == 0 ? 0 : 20) + (double)(PICTURE_LANES * lane);
}

static const char *picture_dark(uint64_t epoch)
{
    return epoch % 2 == 1 ? "#1f5fa8" : "#b45309";
}

static const char *picture_pale(uint64_t epoch)
{
    return epoch % 2 == 1 ? "#d6e6f7" : "#fde5c4";
}

/* ---- drawing */

static void picture_text(FILE *f, double x, double y, const char *style, const char *words)
{
    fprintf(f, "<text x=\"%.1f\" y=\"%.1f\" class=\"%s\">%s</text>\n", x, y, style, words);
}

static void picture_line(FILE *f, double x1, double y1, double x2, double y2, const char *style)
{
    fprintf(f, "<line x1=\"%.1f\" y1=\"%.1f\" x2=\"%.1f\" y2=\"%.1f\" class=\"%s\"/>\n", x1, y1, x2, y2, style);
}

static void picture_cross(FILE *f, double x, double y, double size, const char *style)
{
    picture_line(f, x - size, y - size, x + size, y + size, style);
    picture_line(f, x - size, y + size, x + size, y - size, style);
}

/* A letter leaves its line and ends short of the other; a lost one breaks off on its way. */
static void picture_draw_letter(FILE *f, const struct picture_note *n)
{
    double x1 = picture_x(n->begins), x2 = picture_x(n->ends), y1 = picture_y(n->from), y2 = picture_y(n->to);
    double down = y2 > y1 ? 1 : -1;
    int faint = !picture_moments[n->begins].busy;
    y1 += 7 * down;
    y2 -= 9 * down;
    if (n->good) {
        picture_line(f, x1, y1, x2, y2, n->kind == PICTURE_REPLY ? "reply" : "request");
        return;
    }
    x2 = x1 + (x2 - x1) * 0.4;
    y2 = y1 + (faint ? 16 * down : (y2 - y1) * 0.4);
    picture_line(f, x1, y1, x2, y2, faint ? "faint" : "lost");
    if (!faint)
        picture_cross(f, x2, y2, 3, "lost");
}

static void picture_draw_proposal(FILE *f, const struct picture_note *n)
{
    double x1 = picture_x(n->begins), x2 = picture_x(n->ends), y1 = picture_y(n->from) - 8, y2 = picture_y(0) + 14;
    picture_line(f, x1, y1, x2, y2, n->good ? "proposal" : "proposal rejected");
    if (n->good)
        picture_text(f, x2 + 4, y2 + 12, "small purple", n->words);
    else
        picture_text(f, x1 + 10, y1 - 24, "small purple", n->words);
}

/* A write from when it was taken to when it was acknowledged, above its node's line. Those of one moment are stacked.
 */
static void picture_draw_edit(FILE *f, const struct picture_note *n, unsigned above)
{
    double x1 = picture_x(n->begins) + 6, x2 = picture_x(n->ends) - 6;
    double y = picture_y(n->from) - 15 - 15 * (double)above;
    picture_line(f, x1 + 4, y, x2, y, n->good ? "edit" : "edit never");
    fprintf(f, "<circle cx=\"%.1f\" cy=\"%.1f\" r=\"4\" class=\"taken\"/>\n", x1, y);
    if (n->good)
        fprintf(f, "<circle cx=\"%.1f\" cy=\"%.1f\" r=\"5\" class=\"acknowledged\"/>\n", x2, y);
    else
        picture_cross(f, x2, y, 4, "never");
    picture_text(f, x1 + 8, y - 4, "small", n->words);
}

static unsigned picture_stacked(unsigned at)
{
    unsigned above = 0;
    for (unsigned i = 0; i < at; i++)
        above += picture_notes[i].kind == PICTURE_EDIT && picture_notes[i].begins == picture_notes[at].begins &&
                 picture_notes[i].from == picture_notes[at].from;
    return above;
}

static void picture_draw_chapter(FILE *f, const struct picture_note *n)
{
    double x = picture_x(n->begins);
    char time[16];
    picture_line(f, x, 44, x, picture_y(PICTURE_NODES) + 26, "chapter");
    picture_text(f, x + 5, PICTURE_TOP - 4, "title", n->words);
    snprintf(time, sizeof time, "%.2f s", (double)n->begins / 20);
    picture_text(f, x, picture_y(PICTURE_NODES) + 40, "small middle", time);
}

/* A node's line over some ticks: a band where it is in sync, thick where it leads, broken where it is unplugged. One
 * that leads and is not in sync was deposed and does not know it. */
static void picture_draw_lane(FILE *f, unsigned at, unsigned end, unsigned node)
{
    const struct picture_moment *m = &picture_moments[at];
    double x = picture_x(at), wide = picture_x(end) - x, y = picture_y(node);
    unsigned bit = 1u << node;
    if (m->in_sync & bit)
        fprintf(f, "<rect x=\"%.1f\" y=\"%.1f\" width=\"%.1f\" height=\"16\" fill=\"%s\"/>\n", x, y - 8, wide,
                picture_pale(m->epoch));
    if (m->leads & bit)
        fprintf(f, "<rect x=\"%.1f\" y=\"%.1f\" width=\"%.1f\" height=\"6\" fill=\"%s\" opacity=\"%s\"/>\n", x, y - 3,
                wide, picture_dark((m->in_sync & bit) ? m->epoch : m->epoch - 1), (m->unplugged & bit) ? "0.45" : "1");
    picture_line(f, x, y, x + wide, y, (m->unplugged & bit) ? "lane off" : "lane");
}

/* The map over some ticks, with what it says. */
static void picture_draw_map(FILE *f, unsigned at, unsigned end)
{
    const struct picture_moment *m = &picture_moments[at];
    double x = picture_x(at), y = picture_y(0);
    char words[64];
    int new_epoch = at == 0 || picture_moments[at - 1].epoch != m->epoch, used;
    fprintf(f, "<rect x=\"%.1f\" y=\"%.1f\" width=\"%.1f\" height=\"22\" fill=\"%s\"/>\n", x, y - 11,
            picture_x(end) - x, picture_pale(m->epoch));
    used = new_epoch ? snprintf(words, sizeof words, "epoch %u, in sync", (unsigned)m->epoch)
                     : snprintf(words, sizeof words, "in sync");
    for (unsigned node = 1; node <= PICTURE_NODES; node++)
        if (m->in_sync & 1u << node)
            used += snprintf(words + used, sizeof words - (size_t)used, " %u", node);
    picture_line(f, x, y - 11, x, y + 11, "turn");
    picture_text(f, x + 5, y + 4, "map", words);
}

/* Up to where a lane looks as it does at a tick. The map's lane looks at every node's place in the in-sync set alone.
 */
static unsigned picture_run_end(unsigned at, unsigned lane)
{
    const struct picture_moment *m = &picture_moments[at], *next = m;
    unsigned all = (2u << PICTURE_NODES) - 1, sync = lane == 0 ? all : 1u << lane, rest = lane == 0 ? 0 : 1u << lane;
    do
        next++;
    while (next < picture_moments + picture_ticks && next->epoch == m->epoch &&
           ((next->in_sync ^ m->in_sync) & sync) == 0 && ((next->leads ^ m->leads) & rest) == 0 &&
           ((next->unplugged ^ m->unplugged) & rest) == 0);
    return (unsigned)(next - picture_moments);
}

static void picture_draw_lanes(FILE *f)
{
    static const char *const names[] = {"the map", "node 1", "node 2", "node 3"};
    for (unsigned lane = 0; lane <= PICTURE_NODES; lane++) {
        picture_text(f, 16, picture_y(lane) + 4, "name", names[lane]);
        for (unsigned at = 0, end; at < picture_ticks; at = end) {
            end = picture_run_end(at, lane);
            if (lane == 0)
                picture_draw_map(f, at, end);
            else
                picture_draw_lane(f, at, end, lane);
        }
    }
}

static void picture_legend(FILE *f)
{
    double x = PICTURE_LEFT, y = picture_y(PICTURE_NODES) + 76;
    fprintf(f, "<rect x=\"%.1f\" y=\"%.1f\" width=\"26\" height=\"6\" fill=\"%s\"/>\n", x, y - 7, picture_dark(1));
    picture_text(f, x + 32, y, "small", "primary");
    fprintf(f, "<rect x=\"%.1f\" y=\"%.1f\" width=\"26\" height=\"14\" fill=\"%s\"/>\n", x + 90, y - 11,
            picture_pale(1));
    picture_text(f, x + 122, y, "small", "in sync");
    picture_line(f, x + 176, y - 4, x + 202, y - 4, "lane off");
    picture_text(f, x + 208, y, "small", "unplugged");
    picture_line(f, x + 280, y - 4, x + 304, y - 4, "request");
    picture_text(f, x + 314, y, "small", "request");
    picture_line(f, x + 368, y - 4, x + 392, y - 4, "reply");
    picture_text(f, x + 402, y, "small", "reply");
    picture_line(f, x + 446, y - 4, x + 464, y - 4, "lost");
    picture_cross(f, x + 464, y - 4, 3, "lost");
    picture_text(f, x + 474, y, "small", "lost");
    picture_line(f, x + 512, y - 4, x + 536, y - 4, "proposal");
    picture_text(f, x + 546, y, "small", "to the map (broken: rejected)");
    fprintf(f, "<circle cx=\"%.1f\" cy=\"%.1f\" r=\"4\" class=\"taken\"/>\n", x + 722, y - 4);
    picture_text(f, x + 731, y, "small", "write taken");
    fprintf(f, "<circle cx=\"%.1f\" cy=\"%.1f\" r=\"5\" class=\"acknowledged\"/>\n", x + 806, y - 4);
    picture_text(f, x + 816, y, "small", "acknowledged");
    picture_cross(f, x + 912, y - 4, 4, "never");
    picture_text(f, x + 922, y, "small", "never acknowledged");
}

static void picture_head(FILE *f, double wide, double high)
{
    fprintf(f,
            "<svg xmlns=\"http://www.w3.org/2000/svg\" viewBox=\"0 0 %.0f %.0f\" width=\"%.0f\" height=\"%.0f\" "
            "font-family=\"Helvetica, Arial, sans-serif\">\n<title>A run of the dome</title>\n<style>\n",
            wide, high, wide, high);
    fputs(
        ".head{font-size:17px;font-weight:bold;fill:#1b1b1b}.title{font-size:13px;font-weight:bold;fill:#333}"
        ".name{font-size:13px;font-weight:bold;fill:#333}.small{font-size:11px;fill:#333}.map{font-size:12px;fill:#222}"
        ".middle{text-anchor:middle}.purple{fill:#6d28d9}.small{paint-order:stroke;stroke:#fff;stroke-width:3px}\n"
        ".lane{stroke:#555;stroke-width:1.2}.off{stroke:#aaa;stroke-dasharray:2 "
        "3}.chapter{stroke:#bbb;stroke-dasharray:3 3}"
        ".turn{stroke:#555;stroke-width:1.5}\n"
        ".request{stroke:#2b2b2b;stroke-width:1.3;marker-end:url(#black)}"
        ".reply{stroke:#8a8a8a;stroke-width:1.1;marker-end:url(#grey)}"
        ".lost{stroke:#c81e1e;stroke-width:1.5}.faint{stroke:#c81e1e;stroke-width:.8;opacity:.35}\n"
        ".proposal{stroke:#6d28d9;stroke-width:1.5;marker-end:url(#purple)}.rejected{stroke-dasharray:5 3}\n"
        ".edit{stroke:#15803d;stroke-width:1.6}.taken{fill:#fff;stroke:#15803d;stroke-width:1.6}"
        ".acknowledged{fill:#15803d}.never{stroke:#c81e1e;stroke-width:1.8}.edit.never{stroke-dasharray:3 "
        "3}\n</style>\n",
        f);
    fputs("<defs>", f);
    fputs("<marker id=\"black\" viewBox=\"0 0 8 8\" refX=\"7\" refY=\"4\" markerWidth=\"6\" markerHeight=\"6\" "
          "orient=\"auto\">"
          "<path d=\"M0 0L8 4L0 8z\" fill=\"#2b2b2b\"/></marker>",
          f);
    fputs("<marker id=\"grey\" viewBox=\"0 0 8 8\" refX=\"7\" refY=\"4\" markerWidth=\"6\" markerHeight=\"6\" "
          "orient=\"auto\">"
          "<path d=\"M0 0L8 4L0 8z\" fill=\"#8a8a8a\"/></marker>",
          f);
    fputs("<marker id=\"purple\" viewBox=\"0 0 8 8\" refX=\"7\" refY=\"4\" markerWidth=\"6\" markerHeight=\"6\" "
          "orient=\"auto\">"
          "<path d=\"M0 0L8 4L0 8z\" fill=\"#6d28d9\"/></marker></defs>\n",
          f);
    fprintf(f, "<rect width=\"%.0f\" height=\"%.0f\" rx=\"8\" fill=\"#fff\"/>\n", wide, high);
    picture_text(
        f, 16, 28, "head",
        "Three nodes keep one catalogue: cables lose letters, nodes are unplugged, and no acknowledged write is lost");
}

static void picture_draw_notes(FILE *f)
{
    for (unsigned i = 0; i < picture_count; i++) {
        const struct picture_note *n = &picture_notes[i];
        if (n->kind == PICTURE_CHAPTER)
            picture_draw_chapter(f, n);
        else if (n->kind == PICTURE_PROPOSAL)
            picture_draw_proposal(f, n);
        else if (n->kind == PICTURE_EDIT)
            picture_draw_edit(f, n, picture_stacked(i));
        else
            picture_draw_letter(f, n);
    }
}

/* Ticks at which nothing was noted look like the tick before. */
static void picture_fill(void)
{
    for (unsigned at = 1; at < picture_ticks; at++) {
        int busy = picture_moments[at].busy;
        if (!picture_moments[at].seen)
            picture_moments[at] = picture_moments[at - 1];
        picture_moments[at].busy = busy;
    }
}

/* 0 if the file could be written. */
static int picture_write(const char *path)
{
    double wide = picture_x(picture_ticks) + 30, high = picture_y(PICTURE_NODES) + 96;
    FILE *f = fopen(path, "w");
    if (f == NULL)
        return -1;
    picture_fill();
    picture_head(f, wide, high);
    picture_draw_lanes(f);
    picture_draw_notes(f);
    picture_legend(f);
    picture_text(f, PICTURE_LEFT, picture_y(PICTURE_NODES) + 56, "small", "time, drawn narrower where nothing happens");
    fputs("</svg>\n", f);
    return fclose(f);
}

#endif
