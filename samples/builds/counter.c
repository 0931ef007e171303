/* Two threads count to 6 under a mutex; without it if BUG is defined. */
#include <pthread.h>
#include <sched.h>
#include <stdio.h>

static pthread_mutex_t mutex = PTHREAD_MUTEX_INITIALIZER;
static int counter;

static void *count(void *argument)
{
    for (int i = 0; i < 3; i++) {
#ifndef BUG
        pthread_mutex_lock(&mutex);
#endif
        int seen = counter;
        sched_yield();
        counter = seen + 1;
#ifndef BUG
        pthread_mutex_unlock(&mutex);
#endif
    }
    return argument;
}

int main(void)
{
    pthread_t one, two;
    pthread_create(&one, NULL, count, NULL);
    pthread_create(&two, NULL, count, NULL);
    pthread_join(one, NULL);
    pthread_join(two, NULL);
    printf("%d\n", counter);
    return counter == 6 ? 0 : 1;
}
