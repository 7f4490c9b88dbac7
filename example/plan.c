/* The planner called from C. A sheet whose head declares 40 jobs is refused by every question and no lent byte changes;
 * then two sheets of document 01 are read, judged and walked under their own levels, and given their lowest levels, as
 * the program `survey` does. */
#include <stdio.h>
#include <string.h>
#include "asmeluka.h"

enum { ROOM = 4, UNTOUCHED = 0xEE };

/* All that is lent to the planner. */
struct lent { uint8_t sheet[64], levels[PLANNER_MAX_JOBS], found[PLANNER_FOUND], answer[ROOM]; };

static void show_bytes(const char *name, const uint8_t *bytes, size_t n)
{
    printf("%s", name);
    for (size_t i = 0; i < n; i++) printf(" %02x", bytes[i]);
    printf("\n");
}

static void show_refusal(const char *question, uint32_t reply)
{
    printf("%s: refused %u at %u\n", question, (unsigned)planner_reason(reply), (unsigned)planner_place(reply));
}

static void lend(struct lent *l, const uint8_t *sheet, size_t n)
{
    memset(l, UNTOUCHED, sizeof *l);
    memcpy(l->sheet, sheet, n);
}

static void show_forty(const uint8_t *sheet, size_t n)
{
    struct lent l, before;
    lend(&l, sheet, n);
    l.levels[0] = PLANNER_RC;
    l.levels[1] = PLANNER_SI;
    l.sheet[4] = 40;
    before = l;
    show_bytes("sheet ", before.sheet, n);
    show_bytes("answer", before.answer, ROOM);
    show_refusal("read", planner_read(l.sheet, n));
    show_refusal("levels", planner_levels(l.sheet, n, l.answer, ROOM));
    show_refusal("judge", planner_judge(l.sheet, n, l.levels, 2));
    show_refusal("next", planner_next(l.sheet, n, l.levels, 2, 0, 0, 0, 0, l.found));
    show_refusal("lowest", planner_lowest(l.sheet, n, l.answer, ROOM));
    show_bytes("sheet ", l.sheet, n);
    show_bytes("answer", l.answer, ROOM);
    printf("lent bytes: %s\n", memcmp(&l, &before, sizeof l) ? "changed" : "all as before");
}

static void show_verdict(const struct lent *l, size_t n, const uint8_t *levels, size_t jobs)
{
    static const char *const name[] = { "RC", "SI", "SSI" };
    printf("judge");
    for (size_t j = 0; j < jobs; j++) printf(" %s", name[levels[j]]);
    printf(planner_judge(l->sheet, n, levels, jobs) == 1 ? ": robust\n" : ": not robust\n");
}

static void show_danger(const uint8_t found[PLANNER_FOUND], uint32_t length)
{
    const uint8_t *four = found + PLANNER_FOUND_FOUR, *chain = found + PLANNER_FOUND_CHAIN;
    const uint8_t *pairs = found + PLANNER_FOUND_PAIRS;
    printf("danger %u %u %u %u :", four[0], four[1], four[2], four[3]);
    for (uint32_t i = 0; i < length; i++) printf(" %u", chain[i]);
    printf(" :");
    for (uint32_t i = 0; i <= length; i++) printf(" %u-%u", pairs[2 * i], pairs[2 * i + 1]);
    printf("\n");
}

/* Each danger found is where the next step starts. */
static void show_walk(struct lent *l, size_t n, size_t jobs)
{
    uint8_t at[4] = { 0, 0, 0, 0 };
    for (;;) {
        uint32_t reply = planner_next(l->sheet, n, l->levels, jobs, at[0], at[1], at[2], at[3], l->found);
        if (reply == 0 || reply >= PLANNER_REFUSED) break;
        show_danger(l->found, reply);
        memcpy(at, l->found + PLANNER_FOUND_FOUR, sizeof at);
    }
    printf("end\n");
}

static void show_plan(const uint8_t *sheet, size_t n)
{
    struct lent l;
    lend(&l, sheet, n);
    printf("read: %u\n", (unsigned)planner_read(l.sheet, n));
    uint32_t jobs = planner_levels(l.sheet, n, l.levels, sizeof l.levels);
    if (jobs >= PLANNER_REFUSED) {
        show_refusal("levels", jobs);
        return;
    }
    printf("levels: %u jobs\n", (unsigned)jobs);
    show_verdict(&l, n, l.levels, jobs);
    show_walk(&l, n, jobs);
    printf("lowest: asked %u\n", (unsigned)planner_lowest(l.sheet, n, l.answer, ROOM));
    show_bytes("answer", l.answer, ROOM);
    show_verdict(&l, n, l.answer, jobs);
}

int main(void)
{
    /* Document 01, "The program `survey`": R0 W0 | R0 W0 at RC SI. */
    static const uint8_t shown[] = {
        PLANNER_TAG_HEAD, 0, 4, PLANNER_FORM_1, 2, 0, 1,
        PLANNER_TAG_JOB, 0, 8, PLANNER_RC, 2, PLANNER_KIND_READ, 0, 0, PLANNER_KIND_WRITE, 0, 0,
        PLANNER_TAG_JOB, 0, 8, PLANNER_SI, 2, PLANNER_KIND_READ, 0, 0, PLANNER_KIND_WRITE, 0, 0,
        PLANNER_TAG_END, 0, 0,
    };
    /* Document 01, P9: R0 W1 | W0 W2 | R2 R1 at SI. */
    static const uint8_t p9[] = {
        PLANNER_TAG_HEAD, 0, 4, PLANNER_FORM_1, 3, 0, 3,
        PLANNER_TAG_JOB, 0, 8, PLANNER_SI, 2, PLANNER_KIND_READ, 0, 0, PLANNER_KIND_WRITE, 0, 1,
        PLANNER_TAG_JOB, 0, 8, PLANNER_SI, 2, PLANNER_KIND_WRITE, 0, 0, PLANNER_KIND_WRITE, 0, 2,
        PLANNER_TAG_JOB, 0, 8, PLANNER_SI, 2, PLANNER_KIND_READ, 0, 2, PLANNER_KIND_READ, 0, 1,
        PLANNER_TAG_END, 0, 0,
    };
    printf("A head that declares 40 jobs\n");
    show_forty(shown, sizeof shown);
    printf("\nR0 W0 | R0 W0\n");
    show_plan(shown, sizeof shown);
    printf("\nR0 W1 | W0 W2 | R2 R1\n");
    show_plan(p9, sizeof p9);
    return 0;
}
