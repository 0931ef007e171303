/* Included into each file of libgomp. What libgomp does between a call of the program and its return is its own, and no race of the
 * program: outside.c tells a list of races so. The program's functions, which libgomp calls, are the program's again. */
#ifndef DTHREADS_OUTSIDE_H
#define DTHREADS_OUTSIDE_H

#include <dthreads.h>
#include <pthread.h>

/* Says that the program goes on, and returns how many of libgomp's functions the thread is in. */
unsigned dthreads_gomp_leave(void);
/* Says that the thread is in so many of libgomp's functions again. */
void dthreads_gomp_enter(unsigned count);

#define DTHREADS_OUTSIDE(call) \
    do { \
        unsigned dthreads_count = dthreads_gomp_leave(); \
        call; \
        dthreads_gomp_enter(dthreads_count); \
    } while (0)

#define pthread_exit(value) (dthreads_gomp_leave(), pthread_exit(value))

#endif
