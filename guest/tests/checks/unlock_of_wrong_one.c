/* Misuse: the lock is freed by the call of another one. Right: by its own. */
#include "checks.h"

MUTEX(left);
MUTEX(right);

static void *work(void *argument)
{
    LOCK(left);
    IF_RIGHT(UNLOCK(left));
    IF_WRONG(UNLOCK(right));
    IF_WRONG(UNLOCK(left));
    return argument;
}

int main(void)
{
    done(work, NULL);
}
