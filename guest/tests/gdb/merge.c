/* Two threads store to two bytes of one word in one phase: the word gets both. */
#include <pthread.h>

static volatile char bytes[4] __attribute__((aligned(4)));

static void *store(void *argument)
{
    *(volatile char *)argument = 1;
    return argument;
}

int main(void)
{
    pthread_t threads[2];
    for (int i = 0; i < 2; i++)
        pthread_create(&threads[i], NULL, store, (void *)&bytes[i]);
    for (int i = 0; i < 2; i++)
        pthread_join(threads[i], NULL);
    return bytes[0] + bytes[1];
}
