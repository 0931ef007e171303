/* Race: each thread has another mutex for the same number. Right: the same mutex. */
#include "checks.h"

MUTEX(left);
MUTEX(right);
volatile int total;

static void *one(void *argument)
{
    LOCK(left);
    total++;
    UNLOCK(left);
    return argument;
}

static void *two(void *argument)
{
    IF_RIGHT(LOCK(left));
    IF_WRONG(LOCK(right));
    total++;
    IF_RIGHT(UNLOCK(left));
    IF_WRONG(UNLOCK(right));
    return argument;
}

int main(void)
{
    both(one, two);
}
