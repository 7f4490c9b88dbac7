/* The sheets to measure on: the worst ones, and those that show how cost grows. */
#include <stdio.h>
#include <stdlib.h>
#include "sheet.h"

enum { READS = 1, WRITES = 2 };

static void begin(struct sheet *s, unsigned jobs, unsigned objects, unsigned level)
{
    *s = (struct sheet){ jobs, objects, { { 0 } } };
    for (unsigned j = 0; j < jobs; j++) s->job[j].level = (uint8_t)level;
}

/* The sheet at its lowest levels: robust, so a verdict has to look at everything. */
static void settle(struct sheet *s)
{
    uint8_t b[LONGEST], level[JOBS];
    if (fast.lowest(b, encode(s, b), level, JOBS) >= PLANNER_REFUSED) exit(1);
    for (unsigned j = 0; j < s->jobs; j++) s->job[j].level = level[j];
}

static void fill(struct sheet *s, unsigned jobs, unsigned ops, unsigned objects, unsigned writes_percent)
{
    begin(s, jobs, objects, RC);
    for (unsigned j = 0; j < jobs; j++)
        while (s->job[j].count < ops) add(&s->job[j], below(100) < writes_percent ? WRITES : READS, below(objects));
}

/* 12 jobs of 2 to 5 operations. */
static void realistic(struct sheet *s)
{
    /* 0 stock, 1 silo, 2 plan, 3 medicine stock, 4 withdrawal list, 5 day book; 10.. animals, 20.. their weights,
     * 30.. their rations, 40.. scales */
    static const char *const jobs[] = {
        "R2 R30 R0 W0 W30",             /* ration for animal 0 */
        "R2 R31 R0 W0 W31",
        "R2 R32 R1 W1 W32",
        "R40 W20 W10",                  /* weighing */
        "R40 W21 W11",
        "R41 W22",
        "R10 R3 W3 W4",                 /* medicine */
        "R12 R3 W3 R4 W4",
        "R20 R21 R22 R2 W2",            /* new plan by weights */
        "R0 R1 R3 W5",                  /* day book */
        "R4 R10 R11 R12",               /* who may be sold */
        "R40 R41 W40 W41",              /* calibrate */
    };
    begin(s, sizeof jobs / sizeof *jobs, 50, RC);
    for (unsigned j = 0; j < s->jobs; j++)
        for (const char *p = jobs[j]; *p; p += *p == ' ') {
            unsigned kind = *p++ == 'R' ? READS : WRITES;
            add(&s->job[j], kind, (unsigned)strtoul(p, (char **)&p, 10));
        }
}

/* Every job works on the same objects, half its operations of one kind, then half of the other. */
static void alike(struct sheet *s, unsigned jobs, unsigned ops, unsigned first, unsigned second)
{
    unsigned half = (ops + 1) / 2;
    begin(s, jobs, half, RC);
    for (unsigned j = 0; j < jobs; j++)
        for (unsigned i = 0; i < ops; i++) add(&s->job[j], i < half ? first : second, i % half);
}

/* 246,016 dangers, the most there can be. */
static void dangers(struct sheet *s) { alike(s, JOBS, OPS, READS, WRITES); }

/* The same with the writes first: the lowest levels are all RC. */
static void writesfirst(struct sheet *s) { alike(s, JOBS, OPS, WRITES, READS); }

/* Chains of 31 jobs, the longest; the lowest levels are all SSI. */
static void ring(struct sheet *s)
{
    begin(s, JOBS, JOBS, SI);
    for (unsigned j = 0; j < JOBS; j++) add(&s->job[j], READS, j), add(&s->job[j], WRITES, (j + 1) % JOBS);
}

/* The same with 16 operations a job and objects far apart. */
static void ring16(struct sheet *s)
{
    begin(s, JOBS, OBJECTS, SI);
    for (unsigned j = 0; j < JOBS; j++)
        for (unsigned i = 0; i < 8; i++) add(&s->job[j], READS, 15 * (8 * j + i));
    for (unsigned j = 0; j < JOBS; j++)
        for (unsigned i = 0; i < 8; i++) add(&s->job[j], WRITES, 15 * (8 * ((j + 1) % JOBS) + i));
}

/* A ring in rising order, at RC. */
static void path(struct sheet *s)
{
    begin(s, JOBS, JOBS + 1, RC);
    add(&s->job[0], READS, 0), add(&s->job[0], WRITES, 31);
    for (unsigned j = 1; j < JOBS; j++) add(&s->job[j], WRITES, j - 1), add(&s->job[j], READS, j);
}

/* Two jobs on each rung: 2^14 shortest chains for one danger. */
static void ladder(struct sheet *s)
{
    begin(s, JOBS, 64, SI);
    add(&s->job[0], READS, 0), add(&s->job[0], WRITES, 63);
    add(&s->job[1], WRITES, 0), add(&s->job[1], WRITES, 1);
    for (unsigned j = 2; j < JOBS - 2; j++) add(&s->job[j], READS, j / 2), add(&s->job[j], WRITES, j / 2 + 1);
    for (unsigned j = JOBS - 2; j < JOBS; j++) add(&s->job[j], READS, j / 2), add(&s->job[j], READS, 63);
}

/* The lowest levels are all SSI, by short chains. */
static void skew(struct sheet *s)
{
    begin(s, JOBS, JOBS, RC);
    for (unsigned j = 0; j < JOBS; j++) {
        for (unsigned i = 1; i < OPS; i++) add(&s->job[j], READS, (j + i) % JOBS);
        add(&s->job[j], WRITES, j);
    }
}

/* Jobs 2.. each joined to an earlier one by one object: no cycle, so robust at RC, and yet every split job has first
 * and last jobs. The rest are operations on objects of their own. */
static void tree(struct sheet *s)
{
    unsigned object = 0;
    begin(s, JOBS, OBJECTS, RC);
    for (unsigned j = 1; j < JOBS; j++, object++) {
        unsigned i = below(4) ? j - 1 : below(j), turn = below(2);
        while (s->job[i].count > 12) i = below(j);
        add(&s->job[i], 1 + turn, object * 7);
        add(&s->job[j], 2 - turn, object * 7);
    }
    for (unsigned j = 0; j < JOBS; j++)
        while (s->job[j].count < OPS) add(&s->job[j], 1 + below(2), object++ * 7);
}

/* Random, over few and over many objects. */
static void few(struct sheet *s) { fill(s, JOBS, OPS, 12, 50); }
static void some(struct sheet *s) { fill(s, JOBS, OPS, 300, 50); }
static void many(struct sheet *s) { fill(s, JOBS, OPS, OBJECTS, 50); }

/* Random, and robust at their mixed lowest levels. */
static void settled(struct sheet *s) { fill(s, JOBS, OPS, 1000, 30), settle(s); }
static void settledfew(struct sheet *s) { fill(s, JOBS, OPS, 12, 50), settle(s); }

static void write_sheet(const char *folder, const char *name, const struct sheet *s)
{
    uint8_t b[LONGEST];
    save(folder, name, b, encode(s, b));
    printf("%s/%s\n", folder, name);
}

void make_worst(const char *folder)
{
    static const struct { const char *name; void (*make)(struct sheet *); } worst[] = {
        { "realistic", realistic }, { "dangers", dangers }, { "writesfirst", writesfirst }, { "ring", ring },
        { "ring16", ring16 }, { "path", path }, { "ladder", ladder }, { "skew", skew }, { "tree", tree },
        { "few", few }, { "some", some }, { "many", many }, { "settled", settled }, { "settledfew", settledfew },
    };
    struct sheet s;
    for (size_t i = 0; i < sizeof worst / sizeof *worst; i++) {
        seed(i);
        worst[i].make(&s);
        write_sheet(folder, worst[i].name, &s);
    }
}

/* `alike-8x16` is 8 jobs of 16 operations with as many dangers as such jobs can have; `settled-8x16` is random and
 * robust. A series has one of the two numbers fixed at its most. */
static void make_one(const char *folder, unsigned jobs, unsigned ops)
{
    struct sheet s;
    char name[32];
    alike(&s, jobs, ops, READS, WRITES);
    snprintf(name, sizeof name, "alike-%ux%u", jobs, ops);
    write_sheet(folder, name, &s);
    seed(ops);
    fill(&s, jobs, ops, 300, 30);
    settle(&s);
    snprintf(name, sizeof name, "settled-%ux%u", jobs, ops);
    write_sheet(folder, name, &s);
}

void make_growth(const char *folder)
{
    for (unsigned jobs = 4; jobs <= JOBS; jobs *= 2) make_one(folder, jobs, OPS);
    for (unsigned ops = 1; ops < OPS; ops *= 2) make_one(folder, JOBS, ops);
}
