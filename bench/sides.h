/* The sides of the comparison: each answers the questions of include/asmeluka.h, by the same arguments and replies. */
#ifndef SIDES_H
#define SIDES_H
#include "asmeluka.h"

enum { RC = PLANNER_RC, SI = PLANNER_SI, SSI = PLANNER_SSI };
enum { JOBS = PLANNER_MAX_JOBS, OPS = PLANNER_MAX_OPERATIONS, OBJECTS = PLANNER_MAX_OBJECTS, LONGEST = PLANNER_MAX_SHEET };

struct side {
    const char *name;
    uint32_t (*read)(const uint8_t *sheet, size_t n);
    uint32_t (*levels)(const uint8_t *sheet, size_t n, uint8_t *answer, size_t room);
    uint32_t (*judge)(const uint8_t *sheet, size_t n, const uint8_t *levels, size_t m);
    uint32_t (*next)(const uint8_t *sheet, size_t n, const uint8_t *levels, size_t m,
                     uint8_t t1, uint8_t b1, uint8_t t2, uint8_t tm, uint8_t found[PLANNER_FOUND]);
    uint32_t (*lowest)(const uint8_t *sheet, size_t n, uint8_t *answer, size_t room);
};

extern const struct side alg1, plain, fast;
extern const struct side ours __attribute__((weak));    /* no address where the library is not linked */

/* `found` by its parts. pair[0] is (b1, a2), the one behind the chain's last job is (bm, a1). */
struct danger { uint8_t four[4], chain[JOBS], pair[JOBS][2], zeros[28]; };
_Static_assert(sizeof(struct danger) == PLANNER_FOUND, "found is a struct danger");

#endif
