/* The flag is looked at before the mutex is taken: a signal between is lost. */
#include "explore.h"

static pthread_mutex_t mutex = PTHREAD_MUTEX_INITIALIZER;
static pthread_cond_t condition = PTHREAD_COND_INITIALIZER;
static atomic_bool ready;

static void *wait_until_ready(void *argument)
{
#ifdef RIGHT
    lock(&mutex);
    while (!ready)
        pthread_cond_wait(&condition, &mutex);
    unlock(&mutex);
#else
    while (!ready) {
        lock(&mutex);
        pthread_cond_wait(&condition, &mutex);
        unlock(&mutex);
    }
#endif
    return argument;
}

static void *tell(void *argument)
{
    sched_yield();
    lock(&mutex);
    ready = true;
    pthread_cond_signal(&condition);
    unlock(&mutex);
    return argument;
}

int main(void)
{
    begin(wait_until_ready, 0);
    begin(tell, 0);
    join();
}
