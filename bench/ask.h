/* One question about one sheet, ready to be put to a side. */
#ifndef ASK_H
#define ASK_H
#include <stdbool.h>
#include "sides.h"

enum question { READ, LEVELS, JUDGE, LOWEST, STEP, WALK, QUESTIONS };
extern const char *const question_name[QUESTIONS];

enum { MOST = 4096, STEPS = 16 };

struct ask {
    const struct side *side;
    enum question question;
    uint8_t sheet[MOST], level[JOBS];
    size_t n;
    unsigned jobs, dangers, steps;
    uint8_t from[STEPS][4];     /* where the steps start: at zeros, at the last danger, and evenly between */
};

size_t load(const char *path, uint8_t sheet[MOST]);     /* ends the program if it can't */
void prepare(struct ask *, const char *path);
void put(const struct ask *);       /* STEP puts all its steps */

/* The first danger above `at`, which moves there: the reply. */
uint32_t step_on(const struct side *, const uint8_t *sheet, size_t n, const uint8_t *level, size_t jobs, uint8_t at[4],
                 struct danger *);

#endif
