/* Race: two threads add to one number. Right: with a mutex. */
#include "checks.h"

MUTEX(mutex);
volatile int counter;

static void *add(void *argument)
{
    IF_RIGHT(LOCK(mutex));
    counter++;
    IF_RIGHT(UNLOCK(mutex));
    return argument;
}

int main(void)
{
    both(add, add);
}
