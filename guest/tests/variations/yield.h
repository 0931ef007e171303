/* Turns for the others: after so many every thread that can go on has come to its next wait. */
#include <pthread.h>
#include <sched.h>

static inline void yield(int times)
{
    for (int i = 0; i < times; i++)
        sched_yield();
}

enum { AMPLE = 150 };
