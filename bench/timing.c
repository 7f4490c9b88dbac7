/* Time, always of one side beside another or of one sheet beside another: a time by itself says little. The best of many
 * short rounds counts, so that what else the machine does is left out. */
#define _GNU_SOURCE
#include <stdio.h>
#include <string.h>
#include <time.h>
#include "limit.h"
#include "timing.h"

static double now(clockid_t clock)
{
    struct timespec t;
    clock_gettime(clock, &t);
    return (double)t.tv_sec + 1e-9 * (double)t.tv_nsec;
}

/* The goes that are under way, begun at so many seconds of the processor's time. */
static volatile double begun;
static volatile unsigned under_way;

/* A long round is never left in peace, so the processor's time counts; for a short one its steps may be too coarse. */
static double seconds_for(const struct ask *a, unsigned times)
{
    under_way = times;
    begun = now(CLOCK_PROCESS_CPUTIME_ID);
    double from = now(CLOCK_MONOTONIC);
    for (unsigned i = 0; i < times; i++) put(a);
    double seconds = now(CLOCK_MONOTONIC) - from;
    return seconds < 0.2 ? seconds : now(CLOCK_PROCESS_CPUTIME_ID) - begun;
}

static double best_of(unsigned rounds, const struct ask *a, unsigned times)
{
    double best = seconds_for(a, times);
    while (--rounds > 0) {
        double round = seconds_for(a, times);
        if (round < best) best = round;
    }
    return best / times;
}

/* Seconds for one go: by many short rounds, or for what takes a millisecond or more by some long ones. */
static double go(const struct ask *a)
{
    unsigned times = 1;
    double one = seconds_for(a, 1);
    if (one > 0.2) return one;
    if (one > 0.001) return best_of(3, a, 1 + (unsigned)(0.2 / one));
    while (seconds_for(a, times) < 0.0002) times *= 2;
    return best_of(400, a, times);
}

/* Seconds for one question. If it is given up, the least that it can be, below zero. */
static double measured(const struct ask *a, double limit)
{
    unsigned questions = a->question == STEP ? a->steps : 1;
    if (sigsetjmp(too_long, 1)) return -(now(CLOCK_PROCESS_CPUTIME_ID) - begun) / under_way / questions;
    limit_to(limit);
    double seconds = go(a);
    limit_to(0);
    return seconds / questions;
}

/* What the library is measured against is given up sooner than the library and the C that is meant to be fast. */
static double cost(struct ask *a, const struct side *s, double seconds)
{
    a->side = s;
    return measured(a, s == &alg1 || s == &plain ? seconds : 30 * seconds);
}

/* The cost measured once more, unless it was given up: the better of the two. All that stands beside each other is
 * measured in turn, twice, so that a machine that slows down meanwhile slows all of it. */
static double again(struct ask *a, const struct side *s, double seconds, double first)
{
    double second = first < 0 ? first : cost(a, s, seconds);
    return second > 0 && second < first ? second : first;
}

static const char *name_of(const char *path)
{
    const char *slash = strrchr(path, '/');
    return slash ? slash + 1 : path;
}

/* How many times as much; at least so much if the first was given up, nothing if the second was. */
static void show_ratio(double high, double low)
{
    double ratio = (high < 0 ? -high : high) / low;
    if (low < 0) printf(" %13s", "-");
    else printf(" %s%11.*f", high < 0 ? "> " : "  ", ratio < 100 ? 2 : 0, ratio);
}

static void show_microseconds(double seconds)
{
    double us = 1e6 * (seconds < 0 ? -seconds : seconds);
    printf(" %s%11.*f\n", seconds < 0 ? "> " : "  ", us < 100 ? 2 : 0, us);
    fflush(stdout);
}

/* The side in question: how many times as fast as alg1 and plain, how many times as slow as fast. */
static void show_heading(const struct choice *c)
{
    const struct side *last = c->side[c->sides - 1];
    char text[32];
    printf("%-12s %-8s", "sheet", "question");
    for (unsigned i = 0; i + 1 < c->sides; i++) {
        const struct side *s = c->side[i];
        snprintf(text, sizeof text, "%s/%s", s == &fast ? last->name : s->name, s == &fast ? s->name : last->name);
        printf(" %13s", text);
    }
    printf(" %10s us\n", last->name);
}

static void show_question(const struct choice *c, struct ask *a)
{
    double t[SIDES], *last = &t[c->sides - 1];
    for (unsigned i = 0; i < c->sides; i++) t[i] = cost(a, c->side[i], c->seconds);
    for (unsigned i = 0; i < c->sides; i++) t[i] = again(a, c->side[i], c->seconds, t[i]);
    printf("%-12s %-8s", "", question_name[a->question]);
    for (unsigned i = 0; i + 1 < c->sides; i++)
        if (c->side[i] == &fast) show_ratio(*last, t[i]);
        else show_ratio(t[i], *last);
    show_microseconds(*last);
}

void ratios(const struct choice *c, char **paths)
{
    static struct ask a;
    show_heading(c);
    for (; *paths; paths++) {
        prepare(&a, *paths);
        printf("%-12s %u jobs, %zu bytes, %u dangers\n", name_of(*paths), a.jobs, a.n, a.dangers);
        for (a.question = READ; a.question < QUESTIONS; a.question++)
            if (c->wanted[a.question]) show_question(c, &a);
    }
}

enum { SERIES = 8 };

static void show_growth(const struct side *s, struct ask *series, unsigned sheets, double seconds)
{
    double t[SERIES];
    for (unsigned k = 0; k < sheets; k++) t[k] = cost(&series[k], s, seconds);
    for (unsigned k = 0; k < sheets; k++) t[k] = again(&series[k], s, seconds, t[k]);
    for (unsigned k = 0; k < sheets; k++) show_ratio(t[k], t[0]);
    printf("\n");
    fflush(stdout);
}

void growth(const struct choice *c, char **paths)
{
    static struct ask series[SERIES];
    unsigned sheets = 0;
    printf("%-12s %-8s", "question", "side");
    for (; paths[sheets] && sheets < SERIES; sheets++) {
        prepare(&series[sheets], paths[sheets]);
        printf(" %13s", name_of(paths[sheets]));
    }
    printf("\n%-12s %-8s", "dangers", "");
    for (unsigned k = 0; k < sheets; k++) printf(" %13u", series[k].dangers);
    printf("\n");
    for (enum question q = READ; q < QUESTIONS; q++)
        for (unsigned i = 0; c->wanted[q] && i < c->sides; i++) {
            for (unsigned k = 0; k < sheets; k++) series[k].question = q;
            printf("%-12s %-8s", i ? "" : question_name[q], c->side[i]->name);
            show_growth(c->side[i], series, sheets, c->seconds);
        }
}
