/* A loop on a plain flag: only a quantum ends it. */
#include <pthread.h>
#include <stdio.h>

static volatile int flag;

static void *sets(void *argument)
{
    flag = 1;
    return argument;
}

int main(void)
{
    pthread_t thread;
    pthread_create(&thread, NULL, sets, NULL);
    while (!flag)
        ;
    pthread_join(thread, NULL);
    printf("seen\n");
    return 0;
}
