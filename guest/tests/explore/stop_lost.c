/* Whether to stop is set without the mutex: a worker that has just looked waits for ever. */
#include "explore.h"

static pthread_mutex_t mutex = PTHREAD_MUTEX_INITIALIZER;
static pthread_cond_t changed = PTHREAD_COND_INITIALIZER;
static atomic_bool stops;
static atomic_int idle;

static void *work(void *argument)
{
    lock(&mutex);
    while (!atomic_load(&stops)) {
        atomic_fetch_add(&idle, 1);
        pthread_cond_wait(&changed, &mutex);
        atomic_fetch_sub(&idle, 1);
    }
    unlock(&mutex);
    return argument;
}

int main(void)
{
    begin(work, 0);
    begin(work, 1);
    for (int i = 0; i < 8; i++)
        sched_yield();
#ifdef RIGHT
    lock(&mutex);
#endif
    atomic_store(&stops, true);
    pthread_cond_broadcast(&changed);
#ifdef RIGHT
    unlock(&mutex);
#endif
    join();
}
