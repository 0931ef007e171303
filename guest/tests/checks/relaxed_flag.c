/* Race: a relaxed store publishes data. Right: a store with release. */
#include "checks.h"

volatile int data;
static atomic_int ready;

static void *publish(void *argument)
{
    data = 42;
    atomic_store_explicit(&ready, 1, IF_RIGHT(memory_order_release) IF_WRONG(memory_order_relaxed));
    return argument;
}

static void *take(void *argument)
{
    while (!atomic_load_explicit(&ready, memory_order_acquire))
        ;
    (void)data;
    return argument;
}

int main(void)
{
    both(publish, take);
}
