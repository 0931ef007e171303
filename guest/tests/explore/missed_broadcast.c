/* A latch that two threads wait for tells one alone. */
#include "explore.h"

static pthread_mutex_t mutex = PTHREAD_MUTEX_INITIALIZER;
static pthread_cond_t reached = PTHREAD_COND_INITIALIZER;
static int left = 2;

static void *count_down(void *argument)
{
    lock(&mutex);
    if (--left == 0) {
#ifdef RIGHT
        pthread_cond_broadcast(&reached);
#else
        pthread_cond_signal(&reached);
#endif
    }
    unlock(&mutex);
    return argument;
}

static void *await(void *number)
{
    for (long i = 0; i < (long)number; i++)
        sched_yield();
    lock(&mutex);
    while (left > 0)
        pthread_cond_wait(&reached, &mutex);
    unlock(&mutex);
    return NULL;
}

int main(void)
{
    begin(await, 0);
    begin(count_down, 0);
    begin(count_down, 1);
    begin(await, 12);
    join();
}
