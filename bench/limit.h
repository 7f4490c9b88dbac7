/* Work that is given up after some seconds of the processor's time. */
#ifndef LIMIT_H
#define LIMIT_H
#include <setjmp.h>

/* Where the work goes when its time is up: set by sigsetjmp(too_long, 1) before limit_to(seconds). limit_to(0) is no
 * limit. */
extern sigjmp_buf too_long;
void limit_to(double seconds);

#endif
