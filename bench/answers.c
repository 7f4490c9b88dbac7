/* Answers the questions of a folder, one text after another, in the words of `second oracle`. A byte that was written
 * where none should be has a line of its own. */
#include <stdio.h>
#include <stdlib.h>
#include <string.h>
#include "answers.h"
#include "ask.h"

enum { UNTOUCHED = 0xEE, WORD = 128 };

/* A line of the file `questions`. */
struct line {
    char file[WORD], what[WORD], list[WORD];    /* levels in hexadecimal or -, or the room for an answer */
    unsigned from[4];
    uint8_t sheet[MOST], levels[WORD];
    size_t n, m;
};

static bool refused(uint32_t reply)
{
    if (reply < PLANNER_REFUSED) return false;
    printf("refused %u at %u\n", planner_reason(reply), planner_place(reply));
    return true;
}

static void kept(const uint8_t *b, size_t from, size_t to)
{
    for (size_t i = from; i < to; i++)
        if (b[i] != UNTOUCHED) printf("byte %zu was written\n", i);
}

static void show_danger(const struct danger *d, unsigned length)
{
    printf("danger %u %u %u %u :", d->four[0], d->four[1], d->four[2], d->four[3]);
    for (unsigned i = 0; i < length; i++) printf(" %u", d->chain[i]);
    printf(" | pairs");
    for (unsigned i = 0; i <= length; i++) printf(" %u-%u", d->pair[i][0], d->pair[i][1]);
    printf("\n");
    for (unsigned i = length; i < JOBS; i++)
        if (d->chain[i] || (i > length && (d->pair[i][0] || d->pair[i][1]))) printf("no zeros behind the chain\n");
    for (size_t i = 0; i < sizeof d->zeros; i++)
        if (d->zeros[i]) printf("no zeros behind the pairs\n");
}

/* One step, or all of them. */
static void answer_walk(const struct side *s, const struct line *q, bool all)
{
    uint8_t at[4] = { (uint8_t)q->from[0], (uint8_t)q->from[1], (uint8_t)q->from[2], (uint8_t)q->from[3] };
    struct danger d;
    uint32_t reply;
    do {
        memset(&d, UNTOUCHED, sizeof d);
        reply = step_on(s, q->sheet, q->n, q->levels, q->m, at, &d);
        if (reply > 0 && !refused(reply)) show_danger(&d, reply);
        else kept((uint8_t *)&d, 0, sizeof d);
        if (reply == 0) printf("end\n");
    } while (all && reply > 0 && reply < PLANNER_REFUSED);
}

typedef uint32_t (*question_of_levels)(const uint8_t *sheet, size_t n, uint8_t *answer, size_t room);

/* The levels that a question writes to an answer, and what its reply counts. */
static void answer_levels(question_of_levels ask, const struct line *q, const char *count)
{
    static const char *const name[] = { "RC", "SI", "SSI" };
    uint8_t answer[64];
    memset(answer, UNTOUCHED, sizeof answer);
    uint32_t reply = ask(q->sheet, q->n, answer, strtoul(q->list, 0, 10));
    unsigned jobs = refused(reply) ? 0 : q->sheet[4];
    kept(answer, jobs, sizeof answer);
    if (reply >= PLANNER_REFUSED) return;
    printf("%s", q->what);
    for (unsigned j = 0; j < jobs; j++) printf(" %s", answer[j] <= SSI ? name[answer[j]] : "?");
    printf(" %s %u\n", count, reply);
}

static void answer(const struct side *s, const struct line *q)
{
    uint32_t reply;
    if (!strcmp(q->what, "read")) {
        if (!refused(s->read(q->sheet, q->n))) printf("read\n");
    } else if (!strcmp(q->what, "judge")) {
        reply = s->judge(q->sheet, q->n, q->levels, q->m);
        if (!refused(reply)) printf(reply ? "robust\n" : "not robust\n");
    } else if (!strcmp(q->what, "lowest")) {
        answer_levels(s->lowest, q, "asked");
    } else if (!strcmp(q->what, "levels")) {
        answer_levels(s->levels, q, "jobs");
    } else {
        answer_walk(s, q, !strcmp(q->what, "walk"));
    }
}

static size_t from_hex(const char *text, uint8_t *b)
{
    size_t n = 0;
    for (; text[0] && text[0] != '-'; text += 2) {
        char two[3] = { text[0], text[1], 0 };
        b[n++] = (uint8_t)strtoul(two, 0, 16);
    }
    return n;
}

int answers(const struct side *s, const char *folder)
{
    char path[4096], text[512];
    snprintf(path, sizeof path, "%s/questions", folder);
    FILE *f = fopen(path, "r");
    if (!f) return perror(path), 1;
    while (fgets(text, sizeof text, f)) {
        struct line q = { .from = { 0 } };
        unsigned *from = q.from;
        sscanf(text, "%127s %127s %127s %u %u %u %u", q.file, q.what, q.list, from, from + 1, from + 2, from + 3);
        snprintf(path, sizeof path, "%s/%s", folder, q.file);
        q.n = load(path, q.sheet);
        q.m = from_hex(q.list, q.levels);
        answer(s, &q);
    }
    fclose(f);
    return 0;
}
