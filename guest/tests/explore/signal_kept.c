/* A signal that comes before the wait is taken for one that is kept. */
#include "explore.h"

static pthread_mutex_t mutex = PTHREAD_MUTEX_INITIALIZER;
static pthread_cond_t condition = PTHREAD_COND_INITIALIZER;
static bool is_told;

static void *wait_for_signal(void *argument)
{
    lock(&mutex);
#ifdef RIGHT
    while (!is_told)
#endif
        pthread_cond_wait(&condition, &mutex);
    unlock(&mutex);
    return argument;
}

int main(void)
{
    begin(wait_for_signal, 0);
    for (int i = 0; i < 8; i++)
        sched_yield();
    lock(&mutex);
    is_told = true;
    pthread_cond_signal(&condition);
    unlock(&mutex);
    join();
}
