/* Random sheets, every third damaged, and questions about them. */
#include <stdio.h>
#include <stdlib.h>
#include <string.h>
#include "sheet.h"

static void some_sheet(struct sheet *s, unsigned size)
{
    static const unsigned most[] = { 5, 14, 32 };
    unsigned spread = 1 + below(size ? 24 : 7), wide = below(4) == 0;
    unsigned ops = 1 + below(size == 2 ? 16 : 6), percent = 10 + below(80);
    unsigned level = below(5), step = wide ? 1 + below(4095 / spread) : 1;
    s->jobs = below(20) ? 1 + below(most[size]) : below(3);
    s->objects = wide ? spread * step + below(4097 - spread * step) : spread + below(3);
    for (unsigned j = 0; j < s->jobs; j++) {
        struct job *x = &s->job[j];
        unsigned want = 1 + below(ops);
        x->count = 0;
        x->level = (uint8_t)(level < 3 ? level : below(3));
        for (unsigned tries = 0; tries < 40 && x->count < want; tries++)
            add(x, below(100) < percent ? 2 : 1, below(spread) * step);
    }
}

static size_t damage_once(uint8_t *b, size_t n)
{
    uint8_t *some = b + below((unsigned)n);
    switch (below(7)) {
    case 0: return below((unsigned)n + 1);
    case 1: b[n] = (uint8_t)below(256); return n + 1 + below(3);
    case 2: *some = (uint8_t)below(256); break;
    case 3: *some = (uint8_t)below(4); break;
    case 4: *some ^= (uint8_t)(1u << below(8)); break;
    case 5: if (n > 7) b[3 + below(4)] = (uint8_t)(below(2) ? below(40) : 16); break;
    default:
        if (n > 12) {                           /* three bytes again: doubled operations, odd lengths */
            some = b + 7 + below((unsigned)n - 10);
            memmove(some + 3, some, 3);
        }
    }
    return n;
}

static size_t damage(uint8_t *b, size_t n)
{
    for (unsigned times = 1 + below(2); times && n; times--) n = damage_once(b, n);
    return n;
}

static void own_levels(const struct sheet *s, char text[128])
{
    strcpy(text, s->jobs ? "" : "-");
    for (unsigned j = 0; j < s->jobs; j++) sprintf(text + 2 * j, "%02X", s->job[j].level);
}

/* Mostly as many as there are jobs, and mostly levels. */
static void other_levels(const struct sheet *s, char text[128])
{
    unsigned n = below(12) ? s->jobs : below(35), kind = below(5);
    strcpy(text, n ? "" : "-");
    for (unsigned i = 0; i < n; i++)
        sprintf(text + 2 * i, "%02X", below(200) == 0 ? 2 + below(254) : kind < 3 ? kind : below(3));
}

static void ask_about(FILE *q, const char *name, const struct sheet *s)
{
    char levels[128];
    fprintf(q, "%s read\n", name);
    own_levels(s, levels);
    fprintf(q, "%s walk %s\n", name, levels);
    fprintf(q, "%s lowest %u\n", name, below(6) ? 32 : below(33));
    fprintf(q, "%s levels %u\n", name, below(6) ? 32 : below(33));
    other_levels(s, levels);
    fprintf(q, "%s judge %s\n", name, levels);
    other_levels(s, levels);
    for (unsigned k = 0; k < 3; k++) {
        unsigned high = below(8) ? s->jobs + 2 : 256, b1 = below(below(8) ? 6 : 256);
        fprintf(q, "%s step %s %u %u %u %u\n", name, levels, below(high), b1, below(high), below(high));
    }
}

void make_random(const char *folder, unsigned count, unsigned size)
{
    char path[4096], name[32];
    snprintf(path, sizeof path, "%s/questions", folder);
    FILE *q = fopen(path, "w");
    if (!q) {
        perror(path);
        exit(1);
    }
    for (unsigned i = 0; i < count; i++) {
        struct sheet s;
        uint8_t b[LONGEST + 16] = { 0 };
        some_sheet(&s, size);
        size_t n = encode(&s, b);
        if (i % 3 == 2) n = damage(b, n);
        snprintf(name, sizeof name, "%05u", i);
        save(folder, name, b, n);
        ask_about(q, name, &s);
    }
    fclose(q);
}
