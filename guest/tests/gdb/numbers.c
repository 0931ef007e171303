/* Two threads with a start routine each. */
#include <pthread.h>

volatile int number;

static void *first(void *argument)
{
    number = 1;
    return argument;
}

static void *second(void *argument)
{
    number = 2;
    return argument;
}

int main(void)
{
    pthread_t threads[2];
    pthread_create(&threads[0], NULL, first, NULL);
    pthread_create(&threads[1], NULL, second, NULL);
    for (int i = 0; i < 2; i++)
        pthread_join(threads[i], NULL);
    return 0;
}
