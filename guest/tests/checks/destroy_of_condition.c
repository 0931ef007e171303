/* Misuse: a condition is destroyed while a thread waits for it. Right: after the wait. */
#include "checks.h"

MUTEX(mutex);
static pthread_cond_t changed = PTHREAD_COND_INITIALIZER;
static int ready;

static void *wait_for(void *argument)
{
    LOCK(mutex);
    while (!ready)
        pthread_cond_wait(&changed, &mutex);
    UNLOCK(mutex);
    return argument;
}

int main(void)
{
    pthread_t thread = begun(wait_for, NULL);
    let_pass();
    IF_WRONG(pthread_cond_destroy(&changed));
    LOCK(mutex);
    ready = 1;
    pthread_cond_signal(&changed);
    UNLOCK(mutex);
    ended(thread);
    IF_RIGHT(pthread_cond_destroy(&changed));
}
