/* Misuse: a barrier is destroyed while a thread waits at it. Right: after its round. */
#include "checks.h"

static pthread_barrier_t barrier;

static void *arrive(void *argument)
{
    pthread_barrier_wait(&barrier);
    return argument;
}

int main(void)
{
    pthread_barrier_init(&barrier, NULL, 2);
    pthread_t thread = begun(arrive, NULL);
    let_pass();
    IF_WRONG(pthread_barrier_destroy(&barrier));
    pthread_barrier_wait(&barrier);
    ended(thread);
    IF_RIGHT(pthread_barrier_destroy(&barrier));
}
