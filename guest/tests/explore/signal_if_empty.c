/* A producer signals only if the queue was empty: a second consumer that waits then isn't woken for the second item. */
#include "explore.h"

enum { ITEMS = 2 };

static pthread_mutex_t mutex = PTHREAD_MUTEX_INITIALIZER;
static pthread_cond_t filled = PTHREAD_COND_INITIALIZER;
static int items;

static void *take(void *argument)
{
    lock(&mutex);
    while (items == 0)
        pthread_cond_wait(&filled, &mutex);
    items--;
    unlock(&mutex);
    return argument;
}

static void *put(void *argument)
{
    for (int i = 0; i < ITEMS; i++) {
        lock(&mutex);
        items++;
#ifndef RIGHT
        if (items == 1)
#endif
            pthread_cond_signal(&filled);
        unlock(&mutex);
    }
    return argument;
}

int main(void)
{
    for (int i = 0; i < ITEMS; i++)
        begin(take, i);
    begin(put, 0);
    join();
}
