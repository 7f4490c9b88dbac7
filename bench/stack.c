/* Stack: a question runs on a painted stack, and the paint that is left tells how deep it went. */
#define _GNU_SOURCE
#include <stdio.h>
#include <string.h>
#include <ucontext.h>
#include "limit.h"
#include "stack.h"

enum { DEPTH = 1 << 18, PAINT = 0xA5 };
static uint8_t painted[DEPTH] __attribute__((aligned(64)));
static ucontext_t outside, inside;
static const struct ask *subject;

static void on_stack(void) { put(subject); }

/* Bytes from the top to the deepest one touched, so far if the question is given up. */
static unsigned touched(const struct ask *a, double limit)
{
    unsigned left = 0;
    subject = a;
    memset(painted, PAINT, DEPTH);
    getcontext(&inside);
    inside.uc_stack.ss_sp = painted;
    inside.uc_stack.ss_size = DEPTH;
    inside.uc_link = &outside;
    makecontext(&inside, on_stack, 0);
    if (!sigsetjmp(too_long, 1)) {
        limit_to(limit);
        swapcontext(&outside, &inside);
    }
    limit_to(0);
    while (left < DEPTH && painted[left] == PAINT) left++;
    return DEPTH - left;
}

/* A side that does nothing: what `put` itself takes. */
static uint32_t no_read(const uint8_t *b, size_t n) { return (void)b, (void)n, 0; }
static uint32_t no_judge(const uint8_t *b, size_t n, const uint8_t *l, size_t m) { return (void)b, no_read(l, n + m); }
static uint32_t no_answer(const uint8_t *b, size_t n, uint8_t *l, size_t m) { return no_judge(b, n, l, m); }
static uint32_t no_next(const uint8_t *b, size_t n, const uint8_t *l, size_t m, uint8_t t1, uint8_t b1, uint8_t t2,
                        uint8_t tm, uint8_t *found)
{
    (void)t1, (void)b1, (void)t2, (void)tm, (void)found;
    return no_judge(b, n, l, m);
}

static const struct side idle = { "idle", no_read, no_answer, no_judge, no_next, no_answer };

static unsigned beyond_put(struct ask *a, const struct side *s, double limit)
{
    a->side = &idle;
    unsigned base = touched(a, limit);
    a->side = s;
    unsigned depth = touched(a, limit);
    return depth > base ? depth - base : 0;
}

/* The most over the sheets. A whole walk is its steps, so it goes no deeper. */
void stack(const struct choice *c, char **paths)
{
    static struct ask a;
    unsigned most[SIDES][QUESTIONS] = { { 0 } };
    for (; *paths; paths++) {
        prepare(&a, *paths);
        for (unsigned i = 0; i < c->sides; i++)
            for (a.question = READ; a.question < WALK; a.question++) {
                unsigned depth = c->wanted[a.question] ? beyond_put(&a, c->side[i], c->seconds) : 0;
                if (depth > most[i][a.question]) most[i][a.question] = depth;
            }
    }
    printf("%-12s", "stack, bytes");
    for (unsigned i = 0; i < c->sides; i++) printf(" %9s", c->side[i]->name);
    printf("\n");
    for (unsigned q = READ; q < WALK; q++) {
        if (!c->wanted[q]) continue;
        printf("%-12s", question_name[q]);
        for (unsigned i = 0; i < c->sides; i++) printf(" %9u", most[i][q]);
        printf("\n");
    }
}
