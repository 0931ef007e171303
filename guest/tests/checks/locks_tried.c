/* Order: as locks_both_ways. Right: the second thread only tries the second mutex. */
#include "checks.h"

MUTEX(a);
MUTEX(b);

static void *left(void *argument)
{
    LOCK(a);
    LOCK(b);
    UNLOCK(b);
    UNLOCK(a);
    return argument;
}

static void *right(void *argument)
{
    let_pass();
    LOCK(b);
    IF_RIGHT(int code = pthread_mutex_trylock(&a));
    IF_WRONG(int code = LOCK(a));
    if (code == 0)
        UNLOCK(a);
    UNLOCK(b);
    return argument;
}

int main(void)
{
    both(left, right);
}
