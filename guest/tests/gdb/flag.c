/* Both threads store the same value into one variable in one phase. */
#include <pthread.h>

volatile int flag;

static void *set(void *argument)
{
    flag = 1;
    return argument;
}

int main(void)
{
    pthread_t threads[2];
    for (int i = 0; i < 2; i++)
        pthread_create(&threads[i], NULL, set, NULL);
    for (int i = 0; i < 2; i++)
        pthread_join(threads[i], NULL);
    return flag - 1;
}
