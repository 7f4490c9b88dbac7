#include <stdio.h>
#include <stdlib.h>
#include <string.h>
#include "sheet.h"

static uint64_t state;

void seed(uint64_t number) { state = 88172645463325252u + number * 2654435761u; }

unsigned below(unsigned n)
{
    state ^= state << 13;
    state ^= state >> 7;
    state ^= state << 17;
    return (unsigned)(state >> 20) % n;
}

void add(struct job *j, unsigned kind, unsigned object)
{
    for (unsigned i = 0; i < j->count; i++)
        if (j->kind[i] == kind && j->object[i] == object) return;
    if (j->count == OPS) return;
    j->kind[j->count] = (uint8_t)kind;
    j->object[j->count++] = (uint16_t)object;
}

size_t encode(const struct sheet *s, uint8_t *b)
{
    uint8_t head[] = { 1, 0, 4, 1, (uint8_t)s->jobs, (uint8_t)(s->objects >> 8), (uint8_t)s->objects };
    size_t at = sizeof head;
    memcpy(b, head, sizeof head);
    for (unsigned j = 0; j < s->jobs; j++) {
        const struct job *x = &s->job[j];
        b[at++] = 2;
        b[at++] = 0;
        b[at++] = (uint8_t)(2 + 3 * x->count);
        b[at++] = x->level;
        b[at++] = x->count;
        for (unsigned i = 0; i < x->count; i++) {
            b[at++] = x->kind[i];
            b[at++] = (uint8_t)(x->object[i] >> 8);
            b[at++] = (uint8_t)x->object[i];
        }
    }
    memcpy(b + at, "\x7F\0\0", 3);
    return at + 3;
}

void save(const char *folder, const char *name, const uint8_t *b, size_t n)
{
    char path[4096];
    snprintf(path, sizeof path, "%s/%s", folder, name);
    FILE *f = fopen(path, "wb");
    if (!f || fwrite(b, 1, n, f) != n || fclose(f)) {
        perror(path);
        exit(1);
    }
}
