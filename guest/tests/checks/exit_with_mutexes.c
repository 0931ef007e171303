/* Misuse: pthread_exit with two mutexes of three, which weren't freed in their order. Right: with none. */
#include "checks.h"

MUTEX(a);
MUTEX(b);
MUTEX(c);

static __attribute__((noinline)) void leave(void)
{
    pthread_exit(NULL);
}

static void *work(void *argument)
{
    LOCK(a);
    LOCK(b);
    LOCK(c);
    UNLOCK(b);
    IF_RIGHT(UNLOCK(c), UNLOCK(a));
    leave();
    return argument;
}

int main(void)
{
    done(work, NULL);
}
