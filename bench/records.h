/* What alg1 and fast check alike: all but a job's operations. Each check gives 0 or the refusal (document 01, "Reasons for
 * turning a call down"). */
#ifndef RECORDS_H
#define RECORDS_H
#include "sides.h"

static inline uint32_t refusal(uint32_t number, size_t place) { return number * PLANNER_REFUSED + (uint32_t)place; }

static inline unsigned two(const uint8_t *b) { return (unsigned)b[0] << 8 | b[1]; }

static inline uint32_t check_head(const uint8_t *b, size_t n)
{
    if (n < 3) return refusal(PLANNER_REASON_SHORT, 0);
    if (b[0] != 1) return refusal(PLANNER_REASON_TAG, 0);
    if (two(b + 1) != 4) return refusal(PLANNER_REASON_LENGTH, 0);
    if (n < 7) return refusal(PLANNER_REASON_SHORT, 0);
    if (b[3] != 1) return refusal(PLANNER_REASON_FORM, 3);
    if (b[4] > JOBS) return refusal(PLANNER_REASON_JOBS, 4);
    if (two(b + 5) > OBJECTS) return refusal(PLANNER_REASON_OBJECTS, 5);
    return 0;
}

static inline uint32_t check_job(const uint8_t *b, size_t n, size_t at)
{
    if (n - at < 3) return refusal(PLANNER_REASON_SHORT, at);
    if (b[at] != 2) return refusal(PLANNER_REASON_TAG, at);
    unsigned length = two(b + at + 1);
    if (length < 2) return refusal(PLANNER_REASON_LENGTH, at);
    if (n - at - 3 < length) return refusal(PLANNER_REASON_SHORT, at);
    unsigned k = b[at + 4];
    if (b[at + 3] > SSI) return refusal(PLANNER_REASON_LEVEL, at + 3);
    if (k - 1 > OPS - 1) return refusal(PLANNER_REASON_COUNT, at + 4);
    if (length != 2 + 3 * k) return refusal(PLANNER_REASON_LENGTH, at);
    return 0;
}

static inline uint32_t check_end(const uint8_t *b, size_t n, size_t at)
{
    if (n - at < 3) return refusal(PLANNER_REASON_SHORT, at);
    if (b[at] != 0x7F) return refusal(PLANNER_REASON_TAG, at);
    if (two(b + at + 1) != 0) return refusal(PLANNER_REASON_LENGTH, at);
    if (n - at > 3) return refusal(PLANNER_REASON_AFTER, at + 3);
    return 0;
}

static inline uint32_t check_levels(unsigned jobs, const uint8_t *levels, size_t m)
{
    if (m != jobs) return refusal(PLANNER_REASON_LEVELS_LENGTH, 0);
    for (unsigned i = 0; i < jobs; i++)
        if (levels[i] > SSI) return refusal(PLANNER_REASON_LEVELS_LEVEL, i);
    return 0;
}

/* After reading: the number of jobs, the sheet's own levels being in the first bytes of the answer. */
static inline uint32_t copy_levels(uint32_t fault, const uint8_t *b, uint8_t *answer, size_t room)
{
    if (fault) return fault;
    unsigned jobs = b[4];
    if (room < jobs) return refusal(PLANNER_REASON_ROOM, 0);
    size_t at = 7;
    for (unsigned j = 0; j < jobs; j++) answer[j] = b[at + 3], at += 5 + 3 * (size_t)b[at + 4];
    return jobs;
}

#endif
