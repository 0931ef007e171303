/* Thread-local storage of several alignments, made anew for each thread. */
#include <pthread.h>
#include <stdint.h>
#include <stdio.h>

static __thread int number = 5;
static __thread char aligned[3] __attribute__((aligned(64)));
static __thread long long wide = 77;
static __thread int zeros[10];
static __thread char text[100] __attribute__((aligned(32))) = "text";

static int is_aligned(const void *address, unsigned align)
{
    return (uintptr_t)address % align == 0;
}

static void *run(void *argument)
{
    printf("%d %d %lld %d %s, aligned %d %d %d\n", number, aligned[0], wide, zeros[3], text, is_aligned(aligned, 64),
           is_aligned(text, 32), is_aligned(&wide, 8));
    number = 1;
    aligned[0] = 2;
    wide = 3;
    zeros[3] = 4;
    text[0] = 'x';
    return argument;
}

int main(void)
{
    run(NULL);
    for (int i = 0; i < 3; i++) {
        pthread_t thread;
        pthread_create(&thread, NULL, run, NULL);
        pthread_join(thread, NULL);
    }
    printf("%d %d %lld %d %s\n", number, aligned[0], wide, zeros[3], text);
    return 0;
}
