/* Barriers. Who waits at one waits for one condition of the machine, so the last wakes all in one turn. They make the turns of
 * their waking in the next phase and go on in the one after it; so does the last, or its work would take a phase of its own. */
#include "kept.h"
#include "monitor.h"

/* `crowd` is the number of a condition and, above it, the number of rounds. */
#define NEXT_ROUND ((unsigned)CROWD_CONDITIONS)

/* The object of hints is another one in the next round, which a thread may begin before the last has left this one. */
static const char *round_of(const pthread_barrier_t *barrier)
{
    return (const char *)barrier + (barrier->crowd & NEXT_ROUND ? 1 : 0);
}

/* Waits for the end of this round. A thread whose handlers ran has to look whether it has ended meanwhile; another one finds the barrier
 * perhaps destroyed. */
static void wait_for_others(pthread_barrier_t *barrier)
{
    unsigned round = barrier->crowd;
    enum wake wake;
    do
        wake = monitor_sleep_in_crowd(&barrier->waiters, round);
    while (wake == INTERRUPTED && barrier->crowd == round);
}

int pthread_barrier_init(pthread_barrier_t *barrier, const pthread_barrierattr_t *attributes, unsigned count)
{
    (void)attributes;
    if (count == 0)
        return EINVAL;
    monitor_enter();
    *barrier = (pthread_barrier_t){.count = count, .crowd = monitor.crowds++ % NEXT_ROUND};
    monitor_finish();
    return 0;
}

int pthread_barrier_destroy(pthread_barrier_t *barrier)
{
    if (!barrier->arrived)
        return 0;
    hint_called();
    hint_object(HINT_DESTROY_OF_WAITED, barrier);
    return EBUSY;
}

int pthread_barrier_wait(pthread_barrier_t *barrier)
{
    bool is_last, wakes_others;
    hint_called_on(barrier);
    monitor_enter();
    const char *round = round_of(barrier);
    dthreads_hint_release(round);
    is_last = ++barrier->arrived == barrier->count;
    wakes_others = is_last && barrier->count > 1;
    if (is_last) {
        barrier->arrived = 0;
        barrier->crowd += NEXT_ROUND;
        monitor_wake_all(&barrier->waiters);
    } else {
        wait_for_others(barrier);
    }
    dthreads_hint_acquire(round);
    monitor_finish();
    if (wakes_others && !own.inside)
        dthreads_sync();
    return is_last ? PTHREAD_BARRIER_SERIAL_THREAD : 0;
}

int pthread_barrierattr_init(pthread_barrierattr_t *attributes)
{
    attributes->unused = 0;
    return 0;
}

int pthread_barrierattr_destroy(pthread_barrierattr_t *attributes)
{
    (void)attributes;
    return 0;
}

int pthread_barrierattr_setpshared(pthread_barrierattr_t *attributes, int shared)
{
    return keep_shared(&attributes->unused, shared);
}

int pthread_barrierattr_getpshared(const pthread_barrierattr_t *attributes, int *shared)
{
    *shared = kept_shared(attributes->unused);
    return 0;
}
