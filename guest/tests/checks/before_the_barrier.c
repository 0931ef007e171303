/* Race: a thread reads its neighbour's result before the barrier. Right: behind it. */
#include "checks.h"

static pthread_barrier_t barrier;
volatile int parts[2];

static void *work(void *place)
{
    volatile int *part = place, *other = part == parts ? parts + 1 : parts;
    *part = 1;
    IF_WRONG((void)*other);
    pthread_barrier_wait(&barrier);
    IF_RIGHT((void)*other);
    return NULL;
}

int main(void)
{
    pthread_barrier_init(&barrier, NULL, 2);
    pthread_t first = begun(work, (void *)parts), second = begun(work, (void *)(parts + 1));
    ended(first);
    ended(second);
}
