/* Semaphores without a name. A post goes to the first that waits, or as the run's number has it. */
#include <semaphore.h>
#include "monitor.h"

static int refuse(int code)
{
    errno = code;
    return -1;
}

/* All threads are of one process, whether it is to be shared or not. */
int sem_init(sem_t *semaphore, int shared, unsigned value)
{
    (void)shared;
    if (value > SEM_VALUE_MAX)
        return refuse(EINVAL);
    *semaphore = (sem_t){.value = value};
    return 0;
}

int sem_destroy(sem_t *semaphore)
{
    if (!semaphore->waiters.first)
        return 0;
    hint_called();
    hint_object(HINT_DESTROY_OF_WAITED, semaphore);
    return refuse(EBUSY);
}

/* Waits for a post unless there is one. Who was woken without getting it tries again. */
static enum wake take_here(sem_t *semaphore, uint64_t deadline)
{
    while (semaphore->value == 0) {
        enum wake wake = monitor_sleep_lightly(&semaphore->waiters, deadline, true);
        if (wake != WOKEN || self()->handed)
            return wake;
    }
    semaphore->value--;
    return WOKEN;
}

static enum wake take(sem_t *semaphore, uint64_t deadline)
{
    monitor_enter();
    enum wake wake = cancel_is_due() ? CANCELLED : take_here(semaphore, deadline);
    if (wake == WOKEN)
        dthreads_hint_acquire(semaphore);
    monitor_leave();
    return wake;
}

static int wait_until(sem_t *semaphore, uint64_t deadline)
{
    enum wake wake;
    look_at(semaphore);
    do
        wake = take(semaphore, deadline);
    while (wake == INTERRUPTED && signals_deliver());
    signal_point();
    cancel_here(wake);
    return wake == TIMED_OUT ? refuse(ETIMEDOUT) : wake == INTERRUPTED ? refuse(EINTR) : 0;
}

int sem_wait(sem_t *semaphore)
{
    return wait_until(semaphore, NEVER);
}

int sem_clockwait(sem_t *semaphore, clockid_t clock, const struct timespec *time)
{
    uint64_t deadline;
    return deadline_of(clock, time, &deadline) ? wait_until(semaphore, deadline) : refuse(EINVAL);
}

int sem_timedwait(sem_t *semaphore, const struct timespec *time)
{
    return sem_clockwait(semaphore, CLOCK_REALTIME, time);
}

int sem_trywait(sem_t *semaphore)
{
    look_at(semaphore);
    monitor_enter();
    bool is_free = semaphore->value > 0;
    if (is_free) {
        semaphore->value--;
        dthreads_hint_acquire(semaphore);
    }
    monitor_finish();
    return is_free ? 0 : refuse(EAGAIN);
}

int sem_post(sem_t *semaphore)
{
    int code = 0;
    look_at(semaphore);
    monitor_enter();
    if (semaphore->value == SEM_VALUE_MAX)
        code = EOVERFLOW;
    else if (!monitor_hand(&semaphore->waiters))
        semaphore->value++;
    if (code == 0)
        dthreads_hint_release(semaphore);
    monitor_finish();
    return code ? refuse(code) : 0;
}

int sem_getvalue(sem_t *semaphore, int *value)
{
    monitor_enter();
    *value = (int)semaphore->value;
    monitor_finish();
    return 0;
}
