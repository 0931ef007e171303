/* A consumer that was woken takes an item without looking whether it is still there. */
#include "explore.h"

enum { CONSUMERS = 3 };

static pthread_mutex_t mutex = PTHREAD_MUTEX_INITIALIZER;
static pthread_cond_t filled = PTHREAD_COND_INITIALIZER;
static int items;

static void *consume(void *argument)
{
    lock(&mutex);
#ifdef RIGHT
    while (items == 0)
#else
    if (items == 0)
#endif
        pthread_cond_wait(&filled, &mutex);
    must(items > 0, "an item that isn't there");
    items--;
    unlock(&mutex);
    return argument;
}

static void *produce(void *argument)
{
    for (int i = 0; i < CONSUMERS; i++) {
        lock(&mutex);
        items++;
        pthread_cond_signal(&filled);
        unlock(&mutex);
    }
    return argument;
}

int main(void)
{
    for (int i = 0; i < CONSUMERS; i++)
        begin(consume, i);
    begin(produce, 0);
    join();
}
