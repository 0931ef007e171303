/* Three threads store their own numbers into one variable in one phase. */
#include <pthread.h>

volatile int number;

static void *store(void *argument)
{
    number = *(int *)argument;
    return argument;
}

int main(void)
{
    pthread_t threads[3];
    int numbers[3] = {1, 2, 3};
    for (int i = 0; i < 3; i++)
        pthread_create(&threads[i], NULL, store, &numbers[i]);
    for (int i = 0; i < 3; i++)
        pthread_join(threads[i], NULL);
    return number;
}
