#ifndef STACK_H
#define STACK_H
#include "choice.h"

void stack(const struct choice *, char **paths);

#endif
