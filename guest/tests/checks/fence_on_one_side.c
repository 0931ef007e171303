/* Race: a fence stands before the relaxed store of a flag, but none after the relaxed load. Right: on both sides. */
#include "checks.h"

volatile int data;
static atomic_int ready;

static void *publish(void *argument)
{
    data = 42;
    atomic_thread_fence(memory_order_release);
    atomic_store_explicit(&ready, 1, memory_order_relaxed);
    return argument;
}

static void *take(void *argument)
{
    while (!atomic_load_explicit(&ready, memory_order_relaxed))
        ;
    IF_RIGHT(atomic_thread_fence(memory_order_acquire));
    (void)data;
    return argument;
}

int main(void)
{
    both(publish, take);
}
