/* Race: two managers, each of which makes and joins a worker of its own that adds to one number. Right: with a mutex. */
#include "checks.h"

MUTEX(mutex);
volatile int counter;

static void *work(void *argument)
{
    IF_RIGHT(LOCK(mutex));
    counter++;
    IF_RIGHT(UNLOCK(mutex));
    return argument;
}

static void *manage(void *argument)
{
    return done(work, argument);
}

int main(void)
{
    both(manage, manage);
}
