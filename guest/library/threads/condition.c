/* Condition variables. For hints, a signal is an object of the thread that it wakes: no other thread goes on after it. */
#include "kept.h"
#include "monitor.h"

/* Takes the mutex again, however often it was held before. */
static int mutex_retake(pthread_mutex_t *mutex, unsigned count)
{
    while (mutex_is_kept(mutex))
        monitor_sleep(&mutex->waiters, NEVER, false);
    if (mutex->robust == NOT_RECOVERABLE)
        return ENOTRECOVERABLE;
    mutex_acquire(mutex, HINT_LOCK);
    mutex->count = count;
    return mutex_code(mutex);
}

/* A wait that ends without a signal: others have some turns. */
static enum wake wait_for_nothing(void)
{
    for (uint32_t i = 1 + vary_below(SPURIOUS_TURNS); i > 0; i--)
        monitor_breathe();
    return INTERRUPTED;
}

static enum wake wait_here(pthread_cond_t *condition, pthread_mutex_t *mutex, uint64_t deadline, int *code)
{
    unsigned count = mutex->count;
    const struct dthreads_thread *other = condition->waiters.first;
    if (other && other->waits_with != mutex)
        hint_object(HINT_WAIT_WITH_ANOTHER, condition);
    self()->waits_with = mutex;
    mutex_release(mutex);
    bool is_spurious = varies() && !cancel_is_due() && vary_one_in(SPURIOUS_WAITS);
    enum wake wake = is_spurious ? wait_for_nothing() : monitor_sleep_lightly(&condition->waiters, deadline, true);
    if (wake == WOKEN)
        dthreads_hint_acquire(moment_of(self(), SIGNALLED));
    *code = mutex_retake(mutex, count);
    return wake;
}

static int wait_until(pthread_cond_t *condition, pthread_mutex_t *mutex, uint64_t deadline)
{
    monitor_enter();
    if (mutex->owner != self()) {
        hint_object(HINT_WAIT_WITHOUT_LOCK, condition);
        monitor_leave();
        return EPERM;
    }
    int code;
    enum wake wake = wait_here(condition, mutex, deadline, &code);
    monitor_finish();
    cancel_here(wake);
    return code ? code : wake == TIMED_OUT ? ETIMEDOUT : 0;
}

int condition_wait(pthread_cond_t *condition, pthread_mutex_t *mutex)
{
    return wait_until(condition, mutex, NEVER);
}

int pthread_cond_wait(pthread_cond_t *condition, pthread_mutex_t *mutex)
{
    hint_called_on(condition);
    look_at(mutex);
    return wait_until(condition, mutex, NEVER);
}

int condition_wait_by_clock(pthread_cond_t *condition, pthread_mutex_t *mutex, clockid_t clock, const struct timespec *time)
{
    uint64_t deadline;
    if (!deadline_of(clock, time, &deadline))
        return EINVAL;
    return wait_until(condition, mutex, deadline);
}

int pthread_cond_clockwait(pthread_cond_t *condition, pthread_mutex_t *mutex, clockid_t clock, const struct timespec *time)
{
    hint_called_on(condition);
    look_at(mutex);
    return condition_wait_by_clock(condition, mutex, clock, time);
}

int pthread_cond_timedwait(pthread_cond_t *condition, pthread_mutex_t *mutex, const struct timespec *time)
{
    hint_called_on(condition);
    look_at(mutex);
    return condition_wait_by_clock(condition, mutex, condition->clock, time);
}

int pthread_cond_signal(pthread_cond_t *condition)
{
    look_at(condition);
    monitor_enter();
    struct dthreads_thread *woken = monitor_wake_next(&condition->waiters);
    if (woken)
        dthreads_hint_release(moment_of(woken, SIGNALLED));
    monitor_finish();
    return 0;
}

int pthread_cond_broadcast(pthread_cond_t *condition)
{
    look_at(condition);
    monitor_enter();
    for (struct dthreads_thread *each = condition->waiters.first; each; each = each->next)
        dthreads_hint_release(moment_of(each, SIGNALLED));
    monitor_wake_all(&condition->waiters);
    monitor_finish();
    return 0;
}

int pthread_cond_init(pthread_cond_t *condition, const pthread_condattr_t *attributes)
{
    *condition = (pthread_cond_t)PTHREAD_COND_INITIALIZER;
    if (attributes)
        condition->clock = attributes->clock & KIND;
    return 0;
}

int pthread_cond_destroy(pthread_cond_t *condition)
{
    if (!condition->waiters.first)
        return 0;
    hint_called();
    hint_object(HINT_DESTROY_OF_WAITED, condition);
    return EBUSY;
}

int pthread_condattr_init(pthread_condattr_t *attributes)
{
    attributes->clock = CLOCK_REALTIME;
    return 0;
}

int pthread_condattr_destroy(pthread_condattr_t *attributes)
{
    (void)attributes;
    return 0;
}

int pthread_condattr_setclock(pthread_condattr_t *attributes, clockid_t clock)
{
    if (clock != CLOCK_REALTIME && clock != CLOCK_MONOTONIC)
        return EINVAL;
    attributes->clock = (attributes->clock & ~(clockid_t)KIND) | clock;
    return 0;
}

int pthread_condattr_getclock(const pthread_condattr_t *attributes, clockid_t *clock)
{
    *clock = attributes->clock & KIND;
    return 0;
}

int pthread_condattr_setpshared(pthread_condattr_t *attributes, int shared)
{
    int word = (int)attributes->clock, code = keep_shared(&word, shared);
    attributes->clock = (clockid_t)word;
    return code;
}

int pthread_condattr_getpshared(const pthread_condattr_t *attributes, int *shared)
{
    *shared = kept_shared((int)attributes->clock);
    return 0;
}
