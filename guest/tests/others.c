/* Threads of dthreads.h that make others at the same time are all counted. */
#include <dthreads.h>
#include <errno.h>
#include <pthread.h>
#include <stdio.h>

enum {
    MAKERS = 8,
    EACH = 4,
    STACK = 4096
};

static char stacks[MAKERS * (EACH + 1)][STACK] __attribute__((aligned(16)));

static void nothing(void *argument)
{
    (void)argument;
}

static void makes(void *argument)
{
    char (*own)[STACK] = argument;
    for (int i = 0; i < EACH; i++)
        dthreads_create(nothing, NULL, own[i] + STACK, NULL);
}

static void *waits(void *argument)
{
    pthread_mutex_lock(argument);
    pthread_mutex_unlock(argument);
    return NULL;
}

int main(void)
{
    static pthread_mutex_t mutex = PTHREAD_MUTEX_INITIALIZER;
    static pthread_t threads[300];
    uint32_t numbers[MAKERS];
    int count = 0, code = 0;
    for (int i = 0; i < MAKERS; i++)
        dthreads_create(makes, stacks[MAKERS + i * EACH], stacks[i] + STACK, &numbers[i]);
    for (int i = 0; i < MAKERS; i++)
        dthreads_join(numbers[i], NULL);
    pthread_mutex_lock(&mutex);
    while (count < 300 && (code = pthread_create(&threads[count], NULL, waits, &mutex)) == 0)
        count++;
    pthread_mutex_unlock(&mutex);
    printf("%d more threads, then %s\n", count, code == EAGAIN ? "EAGAIN" : "?");
    for (int i = 0; i < count; i++)
        pthread_join(threads[i], NULL);
    printf("joined\n");
    return 0;
}
