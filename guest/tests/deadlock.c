/* Two threads that take two mutexes in different orders. */
#include <pthread.h>
#include <stdio.h>
#include <unistd.h>

static pthread_mutex_t one = PTHREAD_MUTEX_INITIALIZER, two = PTHREAD_MUTEX_INITIALIZER;

static void *run(void *argument)
{
    pthread_mutex_lock(argument ? &one : &two);
    usleep(1000);
    pthread_mutex_lock(argument ? &two : &one);
    printf("not reached\n");
    return NULL;
}

int main(void)
{
    pthread_t thread;
    printf("before\n");
    pthread_create(&thread, NULL, run, NULL);
    run(&thread);
    return 0;
}
