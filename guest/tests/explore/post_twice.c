/* A path that gives up posts the semaphore that it didn't get: then two are inside. */
#include "explore.h"

static sem_t gate;
static pthread_mutex_t mutex = PTHREAD_MUTEX_INITIALIZER;
static int inside;

static void pass(void)
{
    lock(&mutex);
    must(++inside == 1, "two behind the gate");
    unlock(&mutex);
    lock(&mutex);
    inside--;
    unlock(&mutex);
}

static void *use(void *number)
{
    for (long i = 0; i < (long)number; i++)
        sched_yield();
    if (sem_trywait(&gate) != 0) {
#ifndef RIGHT
        sem_post(&gate);
#endif
        return NULL;
    }
    pass();
    sem_post(&gate);
    return NULL;
}

int main(void)
{
    sem_init(&gate, 0, 1);
    for (int i = 0; i < 4; i++)
        begin(use, 6 * i);
    join();
}
