/* A wait for a condition without a loop: it may end without a signal. */
#include "explore.h"

static pthread_mutex_t mutex = PTHREAD_MUTEX_INITIALIZER;
static pthread_cond_t condition = PTHREAD_COND_INITIALIZER;
static bool is_open;

static void *pass(void *argument)
{
    lock(&mutex);
#ifdef RIGHT
    while (!is_open)
#else
    if (!is_open)
#endif
        pthread_cond_wait(&condition, &mutex);
    must(is_open, "passed a closed gate");
    unlock(&mutex);
    return argument;
}

int main(void)
{
    for (int i = 0; i < 3; i++)
        begin(pass, i);
    for (int i = 0; i < 20; i++)
        sched_yield();
    lock(&mutex);
    is_open = true;
    pthread_cond_broadcast(&condition);
    unlock(&mutex);
    join();
}
