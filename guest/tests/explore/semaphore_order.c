/* A consumer takes the mutex before it waits for an item. */
#include "explore.h"

enum { ITEMS = 3 };

static sem_t mutex, filled;
static int items;

static void *take(void *argument)
{
    for (int i = 0; i < ITEMS; i++) {
#ifdef RIGHT
        sem_wait(&filled);
        sem_wait(&mutex);
#else
        sem_wait(&mutex);
        sem_wait(&filled);
#endif
        items--;
        sem_post(&mutex);
    }
    return argument;
}

static void *put(void *argument)
{
    for (int i = 0; i < ITEMS; i++) {
        sem_wait(&mutex);
        items++;
        sem_post(&mutex);
        sem_post(&filled);
    }
    return argument;
}

int main(void)
{
    sem_init(&mutex, 0, 1);
    sem_init(&filled, 0, 0);
    begin(put, 0);
    for (int i = 0; i < 12; i++)
        sched_yield();
    begin(take, 0);
    join();
}
