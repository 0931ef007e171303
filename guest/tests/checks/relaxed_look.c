/* Race: a relaxed load sees what a store with release published. Right: a load with acquire. */
#include "checks.h"

volatile int data;
static atomic_int ready;

static void *publish(void *argument)
{
    data = 42;
    atomic_store_explicit(&ready, 1, memory_order_release);
    return argument;
}

static void *take(void *argument)
{
    while (!atomic_load_explicit(&ready, IF_RIGHT(memory_order_acquire) IF_WRONG(memory_order_relaxed)))
        ;
    (void)data;
    return argument;
}

int main(void)
{
    both(publish, take);
}
