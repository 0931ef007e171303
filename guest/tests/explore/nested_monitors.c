/* A wait frees the inner mutex, while the outer one stays taken, which who signals needs. */
#include "explore.h"

static pthread_mutex_t outer = PTHREAD_MUTEX_INITIALIZER, inner = PTHREAD_MUTEX_INITIALIZER;
static pthread_cond_t filled = PTHREAD_COND_INITIALIZER;
static int items;

static void *take(void *argument)
{
#ifndef RIGHT
    lock(&outer);
#endif
    lock(&inner);
    while (items == 0)
        pthread_cond_wait(&filled, &inner);
    items--;
    unlock(&inner);
#ifndef RIGHT
    unlock(&outer);
#endif
    return argument;
}

static void *put(void *argument)
{
    lock(&outer);
    lock(&inner);
    items++;
    pthread_cond_signal(&filled);
    unlock(&inner);
    unlock(&outer);
    return argument;
}

int main(void)
{
    begin(put, 0);
    begin(take, 0);
    join();
}
