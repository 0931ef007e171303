/* Order: two mutexes in both orders, never at once. Right: in one order. */
#include "checks.h"

MUTEX(a);
MUTEX(b);

static void *left(void *argument)
{
    LOCK(a);
    LOCK(b);
    UNLOCK(b);
    UNLOCK(a);
    return argument;
}

static void *right(void *argument)
{
    let_pass();
    IF_RIGHT(LOCK(a), LOCK(b));
    IF_WRONG(LOCK(b), LOCK(a));
    UNLOCK(a);
    UNLOCK(b);
    return argument;
}

int main(void)
{
    both(left, right);
}
