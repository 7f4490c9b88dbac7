#ifndef TIMING_H
#define TIMING_H
#include "choice.h"

void ratios(const struct choice *, char **paths);
void growth(const struct choice *, char **paths);

#endif
