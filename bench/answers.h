#ifndef ANSWERS_H
#define ANSWERS_H
#include "sides.h"

int answers(const struct side *, const char *folder);

#endif
