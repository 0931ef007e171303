/* Order: as locks_both_ways, and one thread goes through a gate. Right: both go through it. */
#include "checks.h"

MUTEX(gate);
MUTEX(a);
MUTEX(b);

static void *left(void *argument)
{
    LOCK(gate);
    LOCK(a);
    LOCK(b);
    UNLOCK(b);
    UNLOCK(a);
    UNLOCK(gate);
    return argument;
}

static void *right(void *argument)
{
    let_pass();
    IF_RIGHT(LOCK(gate));
    LOCK(b);
    LOCK(a);
    UNLOCK(a);
    UNLOCK(b);
    IF_RIGHT(UNLOCK(gate));
    return argument;
}

int main(void)
{
    both(left, right);
}
