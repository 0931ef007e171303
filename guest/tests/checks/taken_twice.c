/* Misuse: a normal mutex is taken again by its own thread, which then waits for ever. Right: a recursive one. */
#include "checks.h"

static pthread_mutex_t mutex = IF_RIGHT(PTHREAD_RECURSIVE_MUTEX_INITIALIZER_NP) IF_WRONG(PTHREAD_MUTEX_INITIALIZER);

static __attribute__((noinline)) void inner(void)
{
    LOCK(mutex);
    UNLOCK(mutex);
}

int main(void)
{
    LOCK(mutex);
    inner();
    UNLOCK(mutex);
}
