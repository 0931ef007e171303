/* Order: a thread that waits for a condition keeps another mutex, and takes its own again. Right: it keeps none. */
#include "checks.h"

MUTEX(kept);
MUTEX(mutex);
static pthread_cond_t changed = PTHREAD_COND_INITIALIZER;
static int ready;

static void *wait_for(void *argument)
{
    LOCK(mutex);
    IF_WRONG(LOCK(kept));
    while (!ready)
        pthread_cond_wait(&changed, &mutex);
    IF_WRONG(UNLOCK(kept));
    UNLOCK(mutex);
    return argument;
}

static void *tell(void *argument)
{
    let_pass();
    LOCK(mutex);
    ready = 1;
    UNLOCK(mutex);
    pthread_cond_signal(&changed);
    let_pass();
    LOCK(mutex);
    LOCK(kept);
    UNLOCK(kept);
    UNLOCK(mutex);
    return argument;
}

int main(void)
{
    both(wait_for, tell);
}
