/* What is done once. */
#include "monitor.h"

enum {
    NOT_BEGUN,
    BEGUN,
    FINISHED
};

/* Whether this thread is the one to do it; the others wait until it has been done. */
static bool begin(pthread_once_t *once)
{
    monitor_enter();
    while (once->state == BEGUN)
        monitor_sleep(&once->waiters, NEVER, false);
    bool is_first = once->state == NOT_BEGUN;
    if (is_first)
        once->state = BEGUN;
    dthreads_hint_acquire(once);
    monitor_finish();
    return is_first;
}

static void end(pthread_once_t *once, int state)
{
    monitor_enter();
    dthreads_hint_release(once);
    once->state = state;
    monitor_wake_all(&once->waiters);
    monitor_finish();
}

/* A thread that was cancelled on the way has done nothing. */
static void give_up(void *once)
{
    end(once, NOT_BEGUN);
}

int pthread_once(pthread_once_t *once, void (*routine)(void))
{
    if (once->state == FINISHED) {
        dthreads_hint_acquire(once);
        return 0;
    }
    if (!begin(once))
        return 0;
    pthread_cleanup_push(give_up, once);
    routine();
    pthread_cleanup_pop(0);
    end(once, FINISHED);
    return 0;
}
