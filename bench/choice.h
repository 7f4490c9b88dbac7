/* What a run was asked to measure. */
#ifndef CHOICE_H
#define CHOICE_H
#include "ask.h"

enum { SIDES = 4 };

struct choice {
    const struct side *side[SIDES];     /* the last one is the one in question */
    unsigned sides;
    bool wanted[QUESTIONS];
    double seconds;                     /* after which a question is given up */
};

#endif
