/* A stack that runs over meets a page that isn't mapped. */
#include <pthread.h>
#include <stdio.h>

static int deep(volatile int *above)
{
    volatile int here[100];
    here[0] = *above + 1;
    return deep(here) + here[1];
}

static void *run(void *argument)
{
    volatile int number = 0;
    printf("%d\n", deep(&number));
    return argument;
}

int main(void)
{
    pthread_t thread;
    printf("before\n");
    pthread_create(&thread, NULL, run, NULL);
    pthread_join(thread, NULL);
    return 0;
}
