/* An atomic counter is counted up by a load and a store. */
#include "explore.h"

static atomic_int count;

static void *add(void *number)
{
    for (long i = 0; i < (long)number; i++)
        sched_yield();
#ifdef RIGHT
    atomic_fetch_add(&count, 1);
#else
    atomic_store(&count, atomic_load(&count) + 1);
#endif
    return NULL;
}

int main(void)
{
    begin(add, 0);
    begin(add, 6);
    begin(add, 12);
    join();
    must(atomic_load(&count) == 3, "a count was lost");
}
