/* Race: the fence comes after the relaxed store of the flag, and not before it. Right: before it. */
#include "checks.h"

volatile int data;
static atomic_int ready;

static void *publish(void *argument)
{
    data = 42;
    IF_RIGHT(atomic_thread_fence(memory_order_release));
    atomic_store_explicit(&ready, 1, memory_order_relaxed);
    IF_WRONG(atomic_thread_fence(memory_order_release));
    return argument;
}

static void *take(void *argument)
{
    while (!atomic_load_explicit(&ready, memory_order_relaxed))
        ;
    atomic_thread_fence(memory_order_acquire);
    (void)data;
    return argument;
}

int main(void)
{
    both(publish, take);
}
