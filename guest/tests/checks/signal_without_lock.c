/* Race: what a waiter looks at with the mutex is stored without it. Right: with it. */
#include "checks.h"

MUTEX(mutex);
static pthread_cond_t changed = PTHREAD_COND_INITIALIZER;
volatile int ready;

static void *wait_for(void *argument)
{
    LOCK(mutex);
    while (!ready)
        pthread_cond_wait(&changed, &mutex);
    UNLOCK(mutex);
    return argument;
}

int main(void)
{
    pthread_t thread = begun(wait_for, NULL);
    let_pass();
    IF_RIGHT(LOCK(mutex));
    ready = 1;
    IF_RIGHT(UNLOCK(mutex));
    pthread_cond_signal(&changed);
    ended(thread);
}
