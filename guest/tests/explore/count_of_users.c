/* The last user of an object frees it: whether it is the last is asked after the count was changed. */
#include "explore.h"

static atomic_int users = 2;
static atomic_int freed;

static void *use(void *argument)
{
    sched_yield();
#ifdef RIGHT
    if (atomic_fetch_sub(&users, 1) == 1)
#else
    atomic_fetch_sub(&users, 1);
    if (atomic_load(&users) == 0)
#endif
        must(atomic_fetch_add(&freed, 1) == 0, "freed twice");
    return argument;
}

int main(void)
{
    begin(use, 0);
    begin(use, 1);
    join();
    must(freed == 1, "never freed");
}
