#define _GNU_SOURCE
#include <signal.h>
#include <sys/time.h>
#include "limit.h"

sigjmp_buf too_long;

static void give_up(int number)
{
    (void)number;
    siglongjmp(too_long, 1);
}

/* The handler has a stack of its own: the work's may be painted. */
static void set_handler(void)
{
    static char room[1 << 16];
    stack_t apart = { .ss_sp = room, .ss_size = sizeof room };
    struct sigaction action = { .sa_handler = give_up, .sa_flags = SA_ONSTACK };
    sigaltstack(&apart, 0);
    sigaction(SIGPROF, &action, 0);
}

void limit_to(double seconds)
{
    time_t whole = (time_t)seconds;
    struct itimerval t = { { 0, 0 }, { whole, (suseconds_t)((seconds - (double)whole) * 1e6) } };
    set_handler();
    setitimer(ITIMER_PROF, &t, 0);
}
