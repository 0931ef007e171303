/* Race: one thread changes an object by an atomic operation, another one by a plain store. Right: both do by atomic operations. */
#include "checks.h"

int counter;

static void *add(void *argument)
{
    __atomic_fetch_add(&counter, 1, __ATOMIC_SEQ_CST);
    return argument;
}

static void *reset(void *argument)
{
    IF_RIGHT(__atomic_store_n(&counter, 5, __ATOMIC_SEQ_CST));
    IF_WRONG(*(volatile int *)&counter = 5);
    return argument;
}

int main(void)
{
    both(add, reset);
}
