/* What tools/dt measure debugger debugs: one thread that executes 100 million instructions, or four that take a million turns, or as many
 * as SECTIONS says; with LARGE there are 512 KiB of code beside it, which nobody calls. With ROUNDS it is one thread that calls a function
 * so often, and with LINE one that executes so many rounds of some five instructions in one line. */
#include <pthread.h>
#include <stdint.h>

#ifndef SECTIONS
#define SECTIONS 125000
#endif

#ifdef LARGE
__asm__(".section .text.unused, \"axR\"\n.rept 131072\nnop\n.endr\n.previous");
#endif

volatile uint32_t word;
volatile uint32_t idle = 1;
uint32_t many[1024];
static pthread_mutex_t mutex = PTHREAD_MUTEX_INITIALIZER;
static volatile uint32_t counter;

__attribute__((noinline)) void never(void)
{
    word = 7 * idle;
}

/* It stores to the page of the word all the time. */
__attribute__((noinline)) void compute(void)
{
    uint32_t x = 1;
    for (uint32_t i = 0; i < 11000000; i++) {
        x = x * 1664525 + 1013904223;
        many[(x >> 16) & 1023] += i;
    }
    if (x == 0)
        never();
    word = x;
}

#ifdef ROUNDS
__attribute__((noinline)) void visit(uint32_t round)
{
    word = round;
}
#endif

#ifdef LINE
__attribute__((noinline)) void after(void)
{
    word = 0;
}

__attribute__((noinline)) void one_line(void)
{
    for (uint32_t i = 0; i < LINE; i++) word += i;
    after();
}
#endif

static void *take_turns(void *argument)
{
    for (int i = 0; i < SECTIONS; i++) {
        pthread_mutex_lock(&mutex);
        counter++;
        pthread_mutex_unlock(&mutex);
        for (volatile int k = 0; k < 350; k++)
            ;
    }
    return argument;
}

int main(void)
{
#if defined ROUNDS
    for (uint32_t i = 0; i < ROUNDS; i++)
        visit(i);
    return 0;
#elif defined LINE
    one_line();
    return 0;
#elif defined TURNS
    pthread_t threads[4];
    for (int i = 0; i < 4; i++)
        pthread_create(&threads[i], NULL, take_turns, NULL);
    for (int i = 0; i < 4; i++)
        pthread_join(threads[i], NULL);
    if (counter == 0)
        never();
    return counter != 4 * SECTIONS;
#else
    compute();
    return 0;
#endif
}
