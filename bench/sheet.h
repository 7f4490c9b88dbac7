/* A sheet while it is made. */
#ifndef SHEET_H
#define SHEET_H
#include <stdbool.h>
#include "sides.h"

struct job { uint8_t level, count, kind[OPS]; uint16_t object[OPS]; };
struct sheet { unsigned jobs, objects; struct job job[JOBS]; };

/* Chance, always the same after the same seed. */
void seed(uint64_t);
unsigned below(unsigned n);

/* Adds an operation unless the job is full or has it. */
void add(struct job *, unsigned kind, unsigned object);

size_t encode(const struct sheet *, uint8_t *bytes);
void save(const char *folder, const char *name, const uint8_t *bytes, size_t n);    /* ends the program if it can't */

/* The sets of sheets. The first two write the paths, one to a line. */
void make_worst(const char *folder);
void make_growth(const char *folder);
void make_random(const char *folder, unsigned count, unsigned size);

#endif
