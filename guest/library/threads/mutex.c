/* Mutexes and spin locks. Freed ones go to the first that waits, or as the run's number has it. */
#include "kept.h"
#include "monitor.h"

/* Gives a free mutex to this thread. `hint` says by which kind of call. */
static inline void take_free(pthread_mutex_t *mutex, enum hint hint)
{
    mutex->owner = self();
    mutex->count = 1;
    lock_hold(mutex);
    dthreads_hint_acquire(mutex);
    if (hint == HINT_TRY_LOCK)
        hint_object(HINT_TRY_LOCK, mutex);
    else
        hint_object(HINT_LOCK, mutex);
}

void mutex_acquire(pthread_mutex_t *mutex, enum hint hint)
{
    take_free(mutex, hint);
    if (mutex->robust)
        robust_hold(mutex);
}

static inline void release(pthread_mutex_t *mutex)
{
    lock_drop(&own, mutex);
    dthreads_hint_release(mutex);
    hint_object(HINT_UNLOCK, mutex);
    if (mutex->robust)
        robust_drop(mutex);
    mutex->owner = mutex->robust == NOT_RECOVERABLE ? NULL : monitor_hand(&mutex->waiters);
}

void mutex_release(pthread_mutex_t *mutex)
{
    release(mutex);
}

int mutex_code(const pthread_mutex_t *mutex)
{
    return mutex->robust == OWNER_DEAD ? EOWNERDEAD : 0;
}

/* An unlock by a thread that hasn't the mutex. It frees a normal one of another thread, which waits for something else or has ended. */
static __attribute__((noinline, cold)) int unlock_wrongly(pthread_mutex_t *mutex)
{
    if (mutex->owner)
        hint_object(HINT_UNLOCK_OF_ANOTHERS, mutex);
    else
        hint_object(HINT_UNLOCK_OF_FREE, mutex);
    if (mutex->kind != PTHREAD_MUTEX_NORMAL || mutex->robust)
        return EPERM;
    if (mutex->owner && mutex->owner->life == LIVING)
        lock_drop(mutex->owner->own, mutex);
    dthreads_hint_release(mutex);
    hint_object(HINT_UNLOCK, mutex);
    mutex->owner = monitor_hand(&mutex->waiters);
    return 0;
}

/* Waits for a mutex that is owned, by this thread as well; who frees it may make this thread its owner. */
static int mutex_wait(pthread_mutex_t *mutex, uint64_t deadline)
{
    enum wake wake;
    do {
        wake = monitor_sleep_on(&mutex->waiters, deadline);
        if (wake == TIMED_OUT)
            return ETIMEDOUT;
    } while (mutex_is_kept(mutex) || (wake == INTERRUPTED && mutex->owner == self()));
    if (mutex->robust == NOT_RECOVERABLE)
        return ENOTRECOVERABLE;
    mutex_acquire(mutex, HINT_LOCK);
    return mutex_code(mutex);
}

/* A mutex that this thread has already, and that isn't recursive. */
static int mutex_take_again(pthread_mutex_t *mutex, uint64_t deadline)
{
    if (mutex->kind == PTHREAD_MUTEX_ERRORCHECK || deadline == NEVER)
        hint_object(HINT_TAKEN_TWICE, mutex);
    return mutex->kind == PTHREAD_MUTEX_ERRORCHECK ? EDEADLK : mutex_wait(mutex, deadline);
}

static int mutex_take(pthread_mutex_t *mutex, uint64_t deadline, enum hint hint)
{
    if (mutex->robust == NOT_RECOVERABLE)
        return ENOTRECOVERABLE;
    if (!mutex->owner) {
        mutex_acquire(mutex, hint);
        return mutex_code(mutex);
    }
    if (mutex->owner != self())
        return mutex_wait(mutex, deadline);
    if (mutex->kind != PTHREAD_MUTEX_RECURSIVE)
        return mutex_take_again(mutex, deadline);
    mutex->count++;
    return 0;
}

static inline int lock_until(pthread_mutex_t *mutex, uint64_t deadline)
{
    int code = 0;
    monitor_enter();
    if (!mutex->owner && !mutex->robust)
        take_free(mutex, HINT_LOCK);
    else
        code = mutex_take(mutex, deadline, HINT_LOCK);
    monitor_finish();
    return code;
}

int mutex_lock(pthread_mutex_t *mutex)
{
    return lock_until(mutex, NEVER);
}

int pthread_mutex_lock(pthread_mutex_t *mutex)
{
    hint_called_on(mutex);
    return lock_until(mutex, NEVER);
}

int mutex_lock_by_clock(pthread_mutex_t *mutex, clockid_t clock, const struct timespec *time)
{
    uint64_t deadline;
    if (!deadline_of(clock, time, &deadline))
        return EINVAL;
    return lock_until(mutex, deadline);
}

int pthread_mutex_clocklock(pthread_mutex_t *mutex, clockid_t clock, const struct timespec *time)
{
    hint_called_on(mutex);
    return mutex_lock_by_clock(mutex, clock, time);
}

int pthread_mutex_timedlock(pthread_mutex_t *mutex, const struct timespec *time)
{
    hint_called_on(mutex);
    return mutex_lock_by_clock(mutex, CLOCK_REALTIME, time);
}

int mutex_try(pthread_mutex_t *mutex)
{
    monitor_enter();
    bool is_busy = mutex->owner && !(mutex->owner == self() && mutex->kind == PTHREAD_MUTEX_RECURSIVE);
    int code = is_busy ? EBUSY : mutex_take(mutex, NEVER, HINT_TRY_LOCK);
    monitor_finish();
    return code;
}

int pthread_mutex_trylock(pthread_mutex_t *mutex)
{
    hint_called_on(mutex);
    return mutex_try(mutex);
}

static inline int unlock(pthread_mutex_t *mutex)
{
    int code = 0;
    monitor_enter();
    if (mutex->owner != self())
        code = unlock_wrongly(mutex);
    else if (--mutex->count == 0)
        release(mutex);
    monitor_finish();
    return code;
}

int mutex_unlock(pthread_mutex_t *mutex)
{
    return unlock(mutex);
}

int pthread_mutex_unlock(pthread_mutex_t *mutex)
{
    hint_called_on(mutex);
    return unlock(mutex);
}

int pthread_mutex_init(pthread_mutex_t *mutex, const pthread_mutexattr_t *attributes)
{
    *mutex = (pthread_mutex_t)PTHREAD_MUTEX_INITIALIZER;
    if (attributes) {
        mutex->kind = attributes->kind & KIND;
        mutex->robust = attributes->robust;
    }
    return 0;
}

int pthread_mutex_destroy(pthread_mutex_t *mutex)
{
    if (!mutex->owner)
        return 0;
    hint_called();
    hint_object(HINT_DESTROY_OF_HELD, mutex);
    return EBUSY;
}

int pthread_mutexattr_init(pthread_mutexattr_t *attributes)
{
    *attributes = (pthread_mutexattr_t){PTHREAD_MUTEX_DEFAULT, PTHREAD_MUTEX_STALLED};
    return 0;
}

int pthread_mutexattr_destroy(pthread_mutexattr_t *attributes)
{
    (void)attributes;
    return 0;
}

int pthread_mutexattr_settype(pthread_mutexattr_t *attributes, int kind)
{
    if (kind != PTHREAD_MUTEX_NORMAL && kind != PTHREAD_MUTEX_RECURSIVE && kind != PTHREAD_MUTEX_ERRORCHECK)
        return EINVAL;
    attributes->kind = (attributes->kind & ~KIND) | kind;
    return 0;
}

int pthread_mutexattr_gettype(const pthread_mutexattr_t *attributes, int *kind)
{
    *kind = attributes->kind & KIND;
    return 0;
}

int pthread_mutexattr_setpshared(pthread_mutexattr_t *attributes, int shared)
{
    return keep_shared(&attributes->kind, shared);
}

int pthread_mutexattr_getpshared(const pthread_mutexattr_t *attributes, int *shared)
{
    *shared = kept_shared(attributes->kind);
    return 0;
}

int pthread_mutexattr_setprotocol(pthread_mutexattr_t *attributes, int protocol)
{
    if (protocol != PTHREAD_PRIO_NONE && protocol != PTHREAD_PRIO_INHERIT)
        return ENOTSUP;
    attributes->kind = (attributes->kind & ~KEPT_INHERITED) | (protocol == PTHREAD_PRIO_INHERIT ? KEPT_INHERITED : 0);
    return 0;
}

int pthread_mutexattr_getprotocol(const pthread_mutexattr_t *attributes, int *protocol)
{
    *protocol = attributes->kind & KEPT_INHERITED ? PTHREAD_PRIO_INHERIT : PTHREAD_PRIO_NONE;
    return 0;
}

/* Spin locks. */

int pthread_spin_init(pthread_spinlock_t *lock, int shared)
{
    if (shared != PTHREAD_PROCESS_PRIVATE && shared != PTHREAD_PROCESS_SHARED)
        return EINVAL;
    *lock = (pthread_spinlock_t){0};
    return 0;
}

int pthread_spin_destroy(pthread_spinlock_t *lock)
{
    if (!lock->owner)
        return 0;
    hint_called();
    hint_object(HINT_DESTROY_OF_HELD, lock);
    return EBUSY;
}

static void spin_take(pthread_spinlock_t *lock)
{
    lock->owner = self();
    lock_hold(lock);
    dthreads_hint_acquire(lock);
}

int pthread_spin_trylock(pthread_spinlock_t *lock)
{
    hint_called_on(lock);
    monitor_enter();
    int code = lock->owner ? EBUSY : 0;
    if (code == 0) {
        spin_take(lock);
        hint_object(HINT_TRY_LOCK, lock);
    }
    monitor_finish();
    return code;
}

/* A lock that its holder takes again is never had: nobody else frees it. */
int pthread_spin_lock(pthread_spinlock_t *lock)
{
    hint_called_on(lock);
    monitor_enter();
    if (lock->owner == self())
        hint_object(HINT_TAKEN_TWICE, lock);
    if (lock->owner)
        do
            monitor_sleep(&lock->waiters, NEVER, false);
        while (lock->owner && lock->owner != self());
    spin_take(lock);
    hint_object(HINT_LOCK, lock);
    monitor_finish();
    return 0;
}

int pthread_spin_unlock(pthread_spinlock_t *lock)
{
    hint_called_on(lock);
    monitor_enter();
    int code = lock->owner == self() ? 0 : EPERM;
    if (code == 0) {
        lock_drop(&own, lock);
        dthreads_hint_release(lock);
        hint_object(HINT_UNLOCK, lock);
        lock->owner = monitor_hand(&lock->waiters);
    } else if (lock->owner) {
        hint_object(HINT_UNLOCK_OF_ANOTHERS, lock);
    } else {
        hint_object(HINT_UNLOCK_OF_FREE, lock);
    }
    monitor_finish();
    return code;
}
