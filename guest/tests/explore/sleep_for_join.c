/* A sleep stands for a wait until another thread has done its work. */
#include "explore.h"

static pthread_mutex_t mutex = PTHREAD_MUTEX_INITIALIZER;
static int result;

static void *work(void *argument)
{
    for (int i = 0; i < 4; i++)
        sched_yield();
    lock(&mutex);
    result = 42;
    unlock(&mutex);
    return argument;
}

int main(void)
{
    begin(work, 0);
    usleep(100000);
#ifdef RIGHT
    join();
#endif
    lock(&mutex);
    must(result == 42, "the work wasn't done");
    unlock(&mutex);
#ifndef RIGHT
    join();
#endif
}
