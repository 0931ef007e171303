/* Tells a list of races which accesses are libgomp's own. The compiler calls the first two functions at the beginning and the end of
 * each of libgomp's functions; build-libgomp gives them these names. */
#include <dthreads.h>
#include "outside.h"

static __thread unsigned inside;

static void hint_enter(void)
{
    __asm__ volatile("sltu x0, x0, x0" ::: "memory");
}

static void hint_leave(void)
{
    __asm__ volatile("slt x0, x0, x0" ::: "memory");
}

void dthreads_gomp_begins(void *function, void *caller)
{
    (void)function;
    (void)caller;
    if (inside++ == 0)
        hint_enter();
}

void dthreads_gomp_ends(void *function, void *caller)
{
    (void)function;
    (void)caller;
    if (--inside == 0)
        hint_leave();
}

unsigned dthreads_gomp_leave(void)
{
    unsigned count = inside;
    inside = 0;
    hint_leave();
    return count;
}

void dthreads_gomp_enter(unsigned count)
{
    hint_enter();
    inside = count;
}
