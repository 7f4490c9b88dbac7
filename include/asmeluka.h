/* The level planner's questions for C (C99 and later) and C++.
 *
 * Link with crates/planner_c/out/libplanner_c.a (x86-64 Linux objects), which `rt lib`, in crates/planner_c, proves and
 * writes. For every content of the bytes lent to it, each function is proved to end and to answer as said here;
 * docs/STATEMENTS.md has the promises. What a sheet, a danger and the lowest levels are is fixed by document 01, whose
 * sections are cited, and said in other words in docs/SHEET.md and docs/DANGERS.md.
 *
 * Levels are safe here if the sheet is robust against them by document 004, definition 3.1. A PostgreSQL server is
 * weaker in one case: where a job below SSI overwrites a row that an SSI job has read, a later overwrite by another SSI
 * job goes unnoticed (README.md, "What this does not promise").
 *
 * What the library needs: memcpy and memset; a processor of the level x86-64-v2 (SSE4.2) and its SSE registers, which an
 * interrupt handler that calls it must save; at most 8,448 bytes of stack (measured, docs/FIGURES.md). It has no data,
 * takes no memory and keeps nothing between calls.
 *
 * What the caller keeps, since no proof sees it:
 *   - An address is good for as many bytes as the length beside it says, `found` for PLANNER_FOUND bytes. No address is
 *     null, also where the length is 0: lend the address of any byte there.
 *   - What is written, `found` and `answer`, overlaps nothing else that is lent. `sheet` and `levels` may overlap.
 *   - No other thread writes lent bytes, or reads `found` or `answer`, before the function returns.
 *
 * A reply of PLANNER_REFUSED or more is a refusal: the reason's number times 65536 plus the place. On a refusal no lent
 * byte has changed. All other replies are below PLANNER_REFUSED. A sheet's own fault comes first, then 13, 14 and 15,
 * each only where the function has that argument (document 01, "Reasons for turning a call down").
 */
#ifndef ASMELUKA_H
#define ASMELUKA_H

#include <stddef.h>
#include <stdint.h>

#ifdef __cplusplus
extern "C" {
#endif

/* Isolation levels, one byte each: read committed, snapshot, serializable snapshot (document 01, "What the planner
 * takes and gives"). */
enum { PLANNER_RC = 0, PLANNER_SI = 1, PLANNER_SSI = 2 };

/* The most of each in a sheet of form 1, the operations being those of one job, and the bytes of the longest sheet
 * (document 01, "The sheet, form 1"). */
enum {
    PLANNER_MAX_JOBS = 32,
    PLANNER_MAX_OPERATIONS = 16,
    PLANNER_MAX_OBJECTS = 4096,
    PLANNER_MAX_SHEET = 1706
};

/* What a sheet is made of: the records' tags, the head's form, the operations' kinds (the same section). */
enum { PLANNER_TAG_HEAD = 0x01, PLANNER_TAG_JOB = 0x02, PLANNER_TAG_END = 0x7F };
enum { PLANNER_FORM_1 = 1 };
enum { PLANNER_KIND_READ = 1, PLANNER_KIND_WRITE = 2 };

/* `found` of planner_next: the four numbers T1, b1, T2, Tm; 32 bytes for the jobs T2 .. Tm of the chain shown; 32 pairs
 * of two bytes, from the pair of T1 and T2 to the pair of Tm and T1, the earlier job's operation first; 28 bytes that
 * are kept for later and are 0. A chain of k jobs has k + 1 pairs. Jobs and operations count from 1, and what is not
 * used is 0 (document 01, "The walk and the chain shown"). The last three are where the parts begin. */
enum { PLANNER_FOUND = 128, PLANNER_FOUND_FOUR = 0, PLANNER_FOUND_CHAIN = 4, PLANNER_FOUND_PAIRS = 36 };

/* A refusal's reason and where its place points (document 01, "Reasons for turning a call down"). */
enum {
    PLANNER_REFUSED = 65536,
    PLANNER_REASON_SHORT = 1,           /* a record is cut short: its first byte */
    PLANNER_REASON_TAG = 2,             /* another tag is due here: the record's first byte */
    PLANNER_REASON_LENGTH = 3,          /* wrong length: the record's first byte */
    PLANNER_REASON_FORM = 4,            /* the form is not 1: its byte */
    PLANNER_REASON_JOBS = 5,            /* more than 32: their byte */
    PLANNER_REASON_OBJECTS = 6,         /* more than 4096: the first of their bytes */
    PLANNER_REASON_LEVEL = 7,           /* a job's level is above 2: its byte */
    PLANNER_REASON_COUNT = 8,           /* no operation, or more than 16: the count's byte */
    PLANNER_REASON_KIND = 9,            /* neither a read nor a write: the kind's byte */
    PLANNER_REASON_OBJECT = 10,         /* not below the declared number: the first of its bytes */
    PLANNER_REASON_TWICE = 11,          /* a job's second read or second write of an object: its kind's byte */
    PLANNER_REASON_AFTER = 12,          /* bytes after the end record: the first */
    PLANNER_REASON_LEVELS_LENGTH = 13,  /* not one level for each job: 0 */
    PLANNER_REASON_LEVELS_LEVEL = 14,   /* a level above 2 in the list: its index, from 0 */
    PLANNER_REASON_ROOM = 15            /* the answer has fewer bytes than there are jobs: 0 */
};

static inline uint32_t planner_reason(uint32_t refusal) { return refusal / PLANNER_REFUSED; }
static inline uint32_t planner_place(uint32_t refusal) { return refusal % PLANNER_REFUSED; }

/* Is this a sheet? 0 if it is, else the refusal with the first fault from the first byte on. Changes no byte.
 * Document 01, "The sheet, form 1". */
uint32_t planner_read(const uint8_t *sheet, size_t sheet_length);

/* Which levels does the sheet itself name? The number of jobs, 0 to 32, and the first bytes of `answer` are their levels,
 * one for each job in sheet order; the bytes behind them stay. Or a refusal (1 to 12, 15): then `answer` keeps every
 * byte. With PLANNER_MAX_JOBS bytes there is always room. Document 01, "The sheet, form 1". */
uint32_t planner_levels(const uint8_t *sheet, size_t sheet_length, uint8_t *answer, size_t answer_length);

/* Is the sheet robust against the levels, one for each job in sheet order? 1 if no danger exists, 0 if one does, or a
 * refusal (1 to 14). The levels in the sheet itself play no part. Changes no byte.
 * Document 01, "Conflicts and splits". */
uint32_t planner_judge(const uint8_t *sheet, size_t sheet_length, const uint8_t *levels, size_t levels_length);

/* Which danger is the first above the four numbers, T1 compared first, then b1, T2, Tm? The number of jobs in its
 * chain, 1 to 31, and all of `found` is written as laid out above: the chain is the shortest, of several the lowest,
 * each pair the lowest that will do. Or 0 if none is above, or a refusal (1 to 14): then `found` keeps every byte. The
 * four numbers may be any bytes. Asked from four zeros, and then from each danger found, it shows every danger once, in
 * rising order. Document 01, "The walk and the chain shown". */
uint32_t planner_next(const uint8_t *sheet, size_t sheet_length, const uint8_t *levels, size_t levels_length,
                      uint8_t t1, uint8_t b1, uint8_t t2, uint8_t tm, uint8_t found[PLANNER_FOUND]);

/* Which are the lowest levels? The number asked, 0 to 64, and the first bytes of `answer` are the levels, one for each
 * job in sheet order; the bytes behind them stay. The sheet is robust against these levels, and against no list in
 * which some job is lower. Or a refusal (1 to 12, 15): then `answer` keeps every byte.
 * Document 01, "Lowest levels and the number asked". */
uint32_t planner_lowest(const uint8_t *sheet, size_t sheet_length, uint8_t *answer, size_t answer_length);

#ifdef __cplusplus
}
#endif

#endif
