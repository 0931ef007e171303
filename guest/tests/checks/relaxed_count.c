/* Race: workers count themselves by relaxed additions, and the main thread uses their results when the count says that all are done.
 * Right: additions with release, and a look with acquire. */
#include "checks.h"

enum { WORKERS = 2 };
volatile int results[WORKERS];
static atomic_int finished;

static void *work(void *place)
{
    *(volatile int *)place = 7;
    atomic_fetch_add_explicit(&finished, 1, IF_RIGHT(memory_order_release) IF_WRONG(memory_order_relaxed));
    return NULL;
}

int main(void)
{
    for (int i = 0; i < WORKERS; i++)
        pthread_detach(begun(work, (void *)&results[i]));
    while (atomic_load_explicit(&finished, memory_order_acquire) < WORKERS)
        ;
    (void)results[1];
}
