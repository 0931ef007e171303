/* A failed assertion. */
#include <assert.h>
#include <pthread.h>
#include <stdio.h>

static void *run(void *argument)
{
    assert(argument != NULL);
    return argument;
}

int main(void)
{
    pthread_t thread;
    printf("before\n");
    pthread_create(&thread, NULL, run, NULL);
    pthread_join(thread, NULL);
    printf("not reached\n");
    return 0;
}
