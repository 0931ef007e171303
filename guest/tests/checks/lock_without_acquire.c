/* Race: a spin lock of the program's own is taken by a relaxed exchange. Right: by one with acquire. */
#include "checks.h"

volatile int counter;
static atomic_int locked;

static void *add(void *argument)
{
    int free = 0;
    while (!atomic_compare_exchange_strong_explicit(&locked, &free, 1, IF_RIGHT(memory_order_acquire) IF_WRONG(memory_order_relaxed),
                                                    memory_order_relaxed))
        free = 0;
    counter++;
    atomic_store_explicit(&locked, 0, memory_order_release);
    return argument;
}

int main(void)
{
    both(add, add);
}
