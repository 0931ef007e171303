/* A thread is joined by one that holds a mutex which it needs to end. */
#include "explore.h"

static pthread_mutex_t mutex = PTHREAD_MUTEX_INITIALIZER;
static int count;

static void *work(void *argument)
{
    lock(&mutex);
    count++;
    unlock(&mutex);
    return argument;
}

int main(void)
{
    begin(work, 0);
    for (int i = 0; i < 10; i++)
        sched_yield();
#ifdef RIGHT
    join();
    lock(&mutex);
#else
    lock(&mutex);
    join();
#endif
    must(count == 1, "the work wasn't counted");
    unlock(&mutex);
}
