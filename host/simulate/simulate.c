/* simulate: plays random clusters through the entry points, and checks after every event that each acknowledged write
 * stands on every node in sync. It is beside the theorem about a shard's run, for those who believe runs.
 *
 *     simulate [RUNS [STEPS [SEED [WRONG]]]]     RUNS clusters of STEPS events, the first from SEED, the next from SEED
 * + 1
 *
 * WRONG is a host that breaks one rule of a run, and is there to be caught: outcome-twice tells a node an outcome
 * again, earlier-map shows a node whose worker has stopped the map that it was shown before, earlier-images saves a
 * node's images now and then, and not before each answer. Status 0 if nothing was found, 1 if a run fails: then its
 * seed and its events are told, made as few as will do.
 */
#include <inttypes.h>
#include <stdio.h>
#include <stdlib.h>
#include <string.h>
#include <unistd.h>

#include "cluster.h"

enum { STEPS_MOST = 100000 };

static const char *const wrong_names[] = {"", "outcome-twice", "earlier-map", "earlier-images"}; /* as enum wrong */

/* ---- random numbers, the same for one seed */

static uint64_t state;

static uint64_t random_u64(void)
{
    state += 0x9E3779B97F4A7C15u;
    uint64_t z = state;
    z = (z ^ z >> 30) * 0xBF58476D1CE4E5B9u;
    z = (z ^ z >> 27) * 0x94D049BB133111EBu;
    return z ^ z >> 31;
}

static uint32_t between(uint32_t least, uint32_t most)
{
    return least + (uint32_t)(random_u64() % (most - least + 1));
}

/* ---- a run: its cluster and its events, all from one seed */

static struct event events[STEPS_MOST];

static struct setting draw_setting(enum wrong wrong)
{
    struct setting s = {0, 0, 0, 0, 0, 0, wrong};
    s.nodes = between(2, NODES_MOST);
    s.shards = between(1, SHARDS_MOST);
    s.replication = between(2, s.nodes);
    s.least = between(1, 2);
    s.dimension = between(1, 4);
    s.metric = (uint8_t)between(0, 1);
    return s;
}

/* How often each event comes, in a calm run; what goes wrong comes up to four times as often in a stormy one. */
static const struct {
    uint32_t often;
    bool stormy;
} weights[KINDS] = {
    [WRITE] = {8, false},
    [SEARCH] = {3, false},
    [WAIT] = {12, false},
    [STEP] = {20, false},
    [REQUEST_ARRIVES] = {20, false},
    [REQUEST_LOST] = {1, true},
    [REQUEST_REPEATS] = {1, true},
    [REPLY_ARRIVES] = {20, false},
    [REPLY_LOST] = {1, true},
    [REPLY_REPEATS] = {1, true},
    [PROPOSAL_ARRIVES] = {6, false},
    [PROPOSAL_LOST] = {1, true},
    [OUTCOME_ARRIVES] = {6, false},
    [OUTCOME_LOST] = {1, true},
    [TIMEOUT] = {1, true},
    [MAP_SHOWN] = {8, false},
    [GRANT] = {5, false},
    [CLOCK] = {6, false},
    [PROMOTE] = {1, true},
    [RESTART] = {1, true},
};

static enum kind draw_kind(uint32_t storm)
{
    uint32_t all = 0, drawn;
    for (int k = 0; k < KINDS; k++)
        all += weights[k].often * (weights[k].stormy ? storm : 1);
    drawn = between(0, all - 1);
    for (int k = 0;; k++) {
        uint32_t often = weights[k].often * (weights[k].stormy ? storm : 1);
        if (drawn < often)
            return (enum kind)k;
        drawn -= often;
    }
}

static struct setting draw_run(uint64_t seed, uint32_t steps, enum wrong wrong)
{
    state = seed;
    struct setting setting = draw_setting(wrong);
    uint32_t storm = between(1, 4);
    for (uint32_t i = 0; i < steps; i++) {
        events[i].kind = draw_kind(storm);
        events[i].first = (uint32_t)random_u64();
        events[i].second = (uint32_t)random_u64();
        events[i].third = (uint32_t)random_u64();
    }
    return setting;
}

/* ---- playing a list of events */

static const char *failure; /* of the last list played */

/* How many events were played: all, or those up to the failure. Tables are looked at when the list is over. */
static uint32_t play_list(const struct setting *setting, const struct event *list, uint32_t count)
{
    begin_cluster(setting);
    for (uint32_t i = 0; i < count; i++) {
        failure = play(&list[i]);
        if (failure == NULL)
            failure = check_acknowledged();
        if (failure != NULL)
            return i + 1;
    }
    failure = check_tables();
    return count;
}

/* ---- a failing list made shorter: parts are left out, ever smaller ones, as long as it still fails */

static bool still_fails(const struct setting *setting, const struct event *list, uint32_t *count)
{
    uint32_t played = play_list(setting, list, *count);
    if (failure == NULL)
        return false;
    *count = played;
    return true;
}

static struct event shorter[STEPS_MOST];

/* One pass with parts of that size. Whether anything went. */
static bool leave_out(const struct setting *setting, uint32_t *count, uint32_t part)
{
    bool went = false;
    for (uint32_t at = 0; at < *count;) {
        uint32_t gone = part < *count - at ? part : *count - at, left = *count - gone;
        memcpy(shorter, events, at * sizeof *events);
        memcpy(shorter + at, events + at + gone, (left - at) * sizeof *events);
        if (left > 0 && still_fails(setting, shorter, &left)) {
            memcpy(events, shorter, left * sizeof *events);
            *count = left;
            went = true;
        } else {
            at += part;
        }
    }
    return went;
}

/* Without the event at `gone`, what a later one chooses may be another. So one of them chooses anew. */
static bool choose_anew(const struct setting *setting, uint32_t *count, uint32_t gone)
{
    enum { CHOICES = 12 };
    uint32_t left = *count - 1;
    memcpy(shorter, events, gone * sizeof *events);
    memcpy(shorter + gone, events + gone + 1, (left - gone) * sizeof *events);
    for (uint32_t later = gone; later < left; later++) {
        uint32_t chose = shorter[later].first;
        for (uint32_t choice = 0; choice < CHOICES; choice++) {
            shorter[later].first = choice;
            if (still_fails(setting, shorter, &left)) {
                memcpy(events, shorter, left * sizeof *events);
                *count = left;
                return true;
            }
        }
        shorter[later].first = chose;
    }
    return false;
}

static bool leave_one_out(const struct setting *setting, uint32_t *count)
{
    bool went = false;
    for (uint32_t gone = 0; gone + 1 < *count;)
        if (choose_anew(setting, count, gone))
            went = true;
        else
            gone++;
    return went;
}

static uint32_t shorten(const struct setting *setting, uint32_t count)
{
    for (uint32_t part = count / 2; part > 1; part /= 2)
        leave_out(setting, &count, part);
    bool went = true;
    while (went)
        went = leave_out(setting, &count, 1) || leave_one_out(setting, &count);
    return count;
}

static void report(const struct setting *setting, uint64_t seed, uint32_t steps, uint32_t count)
{
    printf("\nThe run of seed %" PRIu64 " fails at event %" PRIu32 ": %s.\n", seed, count, failure);
    printf("It is played again by: make simulate RUNS=1 STEPS=%" PRIu32 " SEED=%" PRIu64 "%s%s\n", steps, seed,
           setting->wrong == RIGHT ? "" : " WRONG=", wrong_names[setting->wrong]);
    printf("%" PRIu32 " nodes, %" PRIu32 " shards on %" PRIu32 " each. Looking for fewer events that lead there ..\n",
           setting->nodes, setting->shards, setting->replication);
    fflush(stdout);
    uint32_t left = shorten(setting, count);
    printf("%" PRIu32 " of the %" PRIu32 " events do it, after a fresh start:\n\n", left, count);
    telling = true;
    play_list(setting, events, left);
    printf("\n%s.\n", failure);
}

/* ---- operands and progress */

_Noreturn static void refuse(const char *what)
{
    fprintf(stderr,
            "simulate: %s\nusage: simulate [RUNS [STEPS [SEED [outcome-twice | earlier-map | earlier-images]]]]\n",
            what);
    exit(2);
}

static uint64_t number_of(const char *text, uint64_t least, uint64_t most, const char *what)
{
    char *end;
    uint64_t number = strtoull(text, &end, 10);
    if (*text < '0' || *text > '9' || *end != 0 || number < least || number > most)
        refuse(what);
    return number;
}

static enum wrong wrong_of(const char *text)
{
    for (uint32_t i = 0; i < sizeof wrong_names / sizeof wrong_names[0]; i++)
        if (strcmp(text, wrong_names[i]) == 0)
            return (enum wrong)i;
    refuse("there is no such wrong host");
}

static void progress(uint64_t done, uint64_t runs)
{
    bool over = isatty(STDOUT_FILENO);
    if (!over && done != runs && done % (runs < 10 ? 1 : runs / 10) != 0)
        return;
    printf("%s%" PRIu64 " of %" PRIu64 " runs: %" PRIu64 " events, %" PRIu64 " writes taken, %" PRIu64
           " acknowledged, %" PRIu64 " searches compared%s",
           over ? "\r" : "", done, runs, tally.events, tally.accepted, tally.acknowledged, tally.searches,
           over && done != runs ? "" : "\n");
    fflush(stdout);
}

int main(int argc, char **argv)
{
    uint64_t runs = argc > 1 ? number_of(argv[1], 1, UINT32_MAX, "RUNS is a number, 1 or more") : 200;
    uint32_t steps =
        argc > 2 ? (uint32_t)number_of(argv[2], 1, STEPS_MOST, "STEPS is a number from 1 to 100000") : 2000;
    uint64_t seed = argc > 3 ? number_of(argv[3], 0, UINT64_MAX, "SEED is a number") : 1;
    enum wrong wrong = argc > 4 ? wrong_of(argv[4]) : RIGHT;
    printf("%" PRIu64 " random clusters of %" PRIu32 " events, from seed %" PRIu64 "\n", runs, steps, seed);
    for (uint64_t run = 0; run < runs; run++) {
        struct setting setting = draw_run(seed + run, steps, wrong);
        uint32_t played = play_list(&setting, events, steps);
        progress(run + 1, runs);
        if (failure != NULL) {
            report(&setting, seed + run, steps, played);
            return EXIT_FAILURE;
        }
    }
    printf("%" PRIu64 " promotions, %" PRIu64 " shrinks and %" PRIu64 " expands were applied, %" PRIu64 " restarts;\n",
           tally.promotions, tally.shrinks, tally.expands, tally.restarts);
    printf("%" PRIu64 " messages were lost, %" PRIu64 " doubled, and %" PRIu64 " overtook another.\n", tally.lost,
           tally.repeated, tally.overtaking);
    puts("After every event each acknowledged write stood on every node in sync.");
    return EXIT_SUCCESS;
}
