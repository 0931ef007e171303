/* Cancellation, at waits alone, and what is done at a thread's end. A thread of the asynchronous type is cancelled at once by itself, and by
 * others where those of the deferred type are: nothing interrupts what a thread computes. */
#include "monitor.h"

void cancel_here(enum wake wake)
{
    if (wake == CANCELLED)
        thread_leave(NULL, PTHREAD_CANCELED);
}

bool cancel_is_due(void)
{
    return self() && self()->cancelled && !own.cancel_disabled && !own.ending;
}

void cancel_point(void)
{
    if (own.depth > 0)
        return;
    signal_point();
    if (cancel_is_due())
        thread_leave(NULL, PTHREAD_CANCELED);
}

/* A thread of the asynchronous type goes no further once it was cancelled. */
static void cancel_at_once(void)
{
    if (own.cancels_at_once && cancel_is_due())
        thread_leave(NULL, PTHREAD_CANCELED);
}

int pthread_cancel(pthread_t name)
{
    monitor_enter();
    struct dthreads_thread *thread = thread_of(name);
    int code = thread ? 0 : ESRCH;
    if (code == 0 && thread->life == LIVING) {
        thread->cancelled = true;
        if (thread->asleep && thread->may_be_cancelled)
            monitor_wake(thread, CANCELLED);
    }
    monitor_leave();
    cancel_at_once();
    return code;
}

int pthread_setcancelstate(int state, int *old)
{
    if (state != PTHREAD_CANCEL_ENABLE && state != PTHREAD_CANCEL_DISABLE)
        return EINVAL;
    if (old)
        *old = own.cancel_disabled ? PTHREAD_CANCEL_DISABLE : PTHREAD_CANCEL_ENABLE;
    own.cancel_disabled = state == PTHREAD_CANCEL_DISABLE;
    cancel_at_once();
    return 0;
}

int pthread_setcanceltype(int type, int *old)
{
    if (type != PTHREAD_CANCEL_DEFERRED && type != PTHREAD_CANCEL_ASYNCHRONOUS)
        return EINVAL;
    if (old)
        *old = own.cancels_at_once ? PTHREAD_CANCEL_ASYNCHRONOUS : PTHREAD_CANCEL_DEFERRED;
    own.cancels_at_once = type == PTHREAD_CANCEL_ASYNCHRONOUS;
    cancel_at_once();
    return 0;
}

void pthread_testcancel(void)
{
    if (own.cancel_disabled || own.ending)
        return;
    hint_called();
    monitor_enter();
    bool is_cancelled = self()->cancelled;
    monitor_finish();
    if (is_cancelled)
        thread_leave(NULL, PTHREAD_CANCELED);
}

void dthreads_cleanup_push(struct dthreads_cleanup *cleanup)
{
    cleanup->outer = own.cleanup;
    own.cleanup = cleanup;
}

void dthreads_cleanup_pop(struct dthreads_cleanup *cleanup, int execute)
{
    own.cleanup = cleanup->outer;
    if (execute)
        cleanup->routine(cleanup->argument);
}
