/* Misuse: a thread is cancelled while it waits for a condition, and nothing frees its mutex. Right: a cleanup routine does. */
#include "checks.h"

MUTEX(mutex);
static pthread_cond_t never = PTHREAD_COND_INITIALIZER;

static void let_go(void *argument)
{
    (void)argument;
    IF_RIGHT(UNLOCK(mutex));
}

static void *wait_for(void *argument)
{
    pthread_cleanup_push(let_go, NULL);
    LOCK(mutex);
    for (;;)
        pthread_cond_wait(&never, &mutex);
    pthread_cleanup_pop(1);
    return argument;
}

int main(void)
{
    pthread_t thread = begun(wait_for, NULL);
    let_pass();
    pthread_cancel(thread);
    ended(thread);
}
