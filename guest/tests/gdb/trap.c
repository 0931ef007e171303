/* A trap of the cause that CAUSE says, in a thread of its own. */
#include <pthread.h>

static char bytes[8] __attribute__((aligned(8)));

static void *trap(void *argument)
{
#if CAUSE == 0
    __asm__ volatile("jr %0" : : "r"(bytes + 2));
#elif CAUSE == 1
    ((void (*)(void))0)();
#elif CAUSE == 2
    __asm__ volatile(".word 0");
#elif CAUSE == 3
    __asm__ volatile("ebreak");
#elif CAUSE == 4
    __asm__ volatile("lw zero, 1(%0)" : : "r"(bytes));
#elif CAUSE == 5
    __asm__ volatile("lw zero, 0(zero)");
#elif CAUSE == 6
    __asm__ volatile("sw zero, 1(%0)" : : "r"(bytes) : "memory");
#elif CAUSE == 7
    __asm__ volatile("sw zero, 0(zero)" : : : "memory");
#else
    for (;;)
        bytes[0]++;
#endif
    return argument;
}

int main(void)
{
    pthread_t thread;
    pthread_create(&thread, NULL, trap, NULL);
    pthread_join(thread, NULL);
    return 0;
}
