/* 1: a thread runs before those are made that are created beside it. 2: it begins later than after a few turns. */
#include <stdatomic.h>
#include "yield.h"

enum { THREADS = 10, FEW = 6 };

static atomic_int begun;

static void *begin(void *argument)
{
    atomic_fetch_add(&begun, 1);
    return argument;
}

int main(void)
{
    pthread_t threads[THREADS], late;
    for (int i = 0; i < THREADS; i++)
        pthread_create(&threads[i], NULL, begin, NULL);
    int status = atomic_load(&begun) > 0;
    for (int i = 0; i < THREADS; i++)
        pthread_join(threads[i], NULL);
    pthread_create(&late, NULL, begin, NULL);
    yield(FEW);
    if (atomic_load(&begun) == THREADS)
        status |= 2;
    pthread_join(late, NULL);
    return status;
}
