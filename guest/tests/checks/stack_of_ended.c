/* Freed: a thread returns the address of a local variable. Right: of a static one. */
#include "checks.h"

static void *count(void *argument)
{
    IF_RIGHT(static) volatile int number;
    number = 5;
    void *volatile place = (void *)&number;
    return argument ? NULL : place;
}

int main(void)
{
    volatile int *number = done(count, NULL);
    (void)*number;
}
