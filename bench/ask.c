#include <stdio.h>
#include <stdlib.h>
#include <string.h>
#include "ask.h"

const char *const question_name[QUESTIONS] = { "read", "levels", "judge", "lowest", "step", "walk" };

size_t load(const char *path, uint8_t sheet[MOST])
{
    FILE *f = fopen(path, "rb");
    if (!f) {
        perror(path);
        exit(1);
    }
    size_t n = fread(sheet, 1, MOST, f);
    fclose(f);
    return n;
}

uint32_t step_on(const struct side *s, const uint8_t *sheet, size_t n, const uint8_t *level, size_t jobs, uint8_t at[4],
                 struct danger *d)
{
    uint32_t reply = s->next(sheet, n, level, jobs, at[0], at[1], at[2], at[3], (uint8_t *)d);
    if (reply > 0 && reply < PLANNER_REFUSED) memcpy(at, d->four, 4);
    return reply;
}

static bool move(const struct side *s, const struct ask *a, uint8_t at[4])
{
    struct danger d;
    uint32_t reply = step_on(s, a->sheet, a->n, a->level, a->jobs, at, &d);
    return reply > 0 && reply < PLANNER_REFUSED;
}

static unsigned walk(const struct side *s, const struct ask *a)
{
    uint8_t at[4] = { 0 };
    unsigned dangers = 0;
    while (move(s, a, at)) dangers++;
    return dangers;
}

static void take_steps(const struct side *s, const struct ask *a)
{
    for (unsigned i = 0; i < a->steps; i++) {
        uint8_t at[4];
        memcpy(at, a->from[i], 4);
        move(s, a, at);
    }
}

void prepare(struct ask *a, const char *path)
{
    uint8_t at[4] = { 0 };
    a->n = load(path, a->sheet);
    a->jobs = fast.levels(a->sheet, a->n, a->level, JOBS);
    if (a->jobs >= PLANNER_REFUSED) {
        fprintf(stderr, "%s: not a sheet\n", path);
        exit(1);
    }
    a->dangers = walk(&fast, a);
    a->steps = 0;
    for (unsigned i = 0, next = 0; i <= a->dangers; i++) {
        if (i == next) {
            memcpy(a->from[a->steps++], at, 4);
            next = a->dangers < STEPS ? i + 1 : (unsigned)((uint64_t)a->steps * a->dangers / (STEPS - 1));
        }
        move(&fast, a, at);
    }
}

void put(const struct ask *a)
{
    const struct side *s = a->side;
    uint8_t answer[JOBS];
    switch (a->question) {
    case READ: s->read(a->sheet, a->n); break;
    case LEVELS: s->levels(a->sheet, a->n, answer, JOBS); break;
    case JUDGE: s->judge(a->sheet, a->n, a->level, a->jobs); break;
    case LOWEST: s->lowest(a->sheet, a->n, answer, JOBS); break;
    case STEP: take_steps(s, a); break;
    default: walk(s, a);
    }
}
