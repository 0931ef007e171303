/* Read-write locks. A waiting writer goes before new readers, but not before a thread that reads already. Readers leave the
 * monitor, so that they run side by side; a writer stays in it. For hints a lock is two objects, that of its writers and that of its
 * readers, which no reader acquires. */
#include <stdlib.h>
#include <string.h>
#include "kept.h"
#include "monitor.h"

/* How often this thread reads a lock. */
struct reading {
    const pthread_rwlock_t *lock;
    uint32_t count;
};

enum {
    /* Locks that a thread reads at once before its list takes memory. */
    FEW = 4
};

static __thread struct {
    struct reading few[FEW];
    struct reading *all;
    uint32_t length;
    uint32_t room;
} readings;

static struct reading *reading_of(const pthread_rwlock_t *lock)
{
    struct reading *all = readings.all ? readings.all : readings.few;
    for (uint32_t i = 0; i < readings.length; i++)
        if (all[i].lock == lock)
            return &all[i];
    return NULL;
}

/* Makes room for one more; false if out of memory. */
static bool readings_grow(void)
{
    uint32_t room = readings.all ? readings.room : FEW;
    if (readings.length < room)
        return true;
    struct reading *larger = heap_resize(readings.all, 2 * room * sizeof *larger);
    if (!larger)
        return false;
    if (!readings.all)
        memcpy(larger, readings.few, sizeof readings.few);
    readings.all = larger;
    readings.room = 2 * room;
    return true;
}

/* There is room. */
static void reading_begin(const pthread_rwlock_t *lock)
{
    struct reading *reading = reading_of(lock);
    struct reading *all = readings.all ? readings.all : readings.few;
    if (!reading) {
        reading = &all[readings.length++];
        *reading = (struct reading){.lock = lock};
    }
    reading->count++;
}

static void reading_end(struct reading *reading)
{
    struct reading *all = readings.all ? readings.all : readings.few;
    if (--reading->count == 0)
        *reading = all[--readings.length];
}

void readings_drop(const void *caller)
{
    const struct reading *all = readings.all ? readings.all : readings.few;
    if (caller && readings.length > 0)
        hint_caller(caller);
    for (uint32_t i = 0; i < readings.length; i++)
        hint_object(HINT_END_WITH_LOCK, all[i].lock);
    free(readings.all);
    readings.all = NULL;
    readings.length = 0;
}

static bool may_read(const pthread_rwlock_t *lock)
{
    if (lock->writer)
        return false;
    return !lock->waiters.first || lock->kind == PTHREAD_RWLOCK_PREFER_READER_NP
        || (lock->kind == PTHREAD_RWLOCK_PREFER_WRITER_NP && reading_of(lock));
}

static bool may_write(const pthread_rwlock_t *lock)
{
    return !lock->writer && lock->readers == 0;
}

/* Takes the lock for this thread, if it may have it. */
static bool take(pthread_rwlock_t *lock, bool is_writer)
{
    if (is_writer ? !may_write(lock) : !may_read(lock))
        return false;
    if (is_writer)
        lock->writer = self();
    else
        lock->readers++;
    return true;
}

static void hand_to(pthread_rwlock_t *lock, struct dthreads_thread *thread)
{
    if (thread->is_writer)
        lock->writer = thread;
    else
        lock->readers++;
    thread->handed = true;
    monitor_wake(thread, WOKEN);
}

/* Gives a free lock to who comes next, a writer, or a reader and those up to the next writer. By choice all are woken to try again. */
static void hand_over(pthread_rwlock_t *lock)
{
    struct dthreads_thread *first = lock->waiters.first;
    if (!first || (first->is_writer && lock->readers > 0))
        return;
    if (vary_one_in(2)) {
        monitor_wake_all(&lock->waiters);
        return;
    }
    struct dthreads_thread *next = monitor_next(&lock->waiters);
    if (!next->is_writer || lock->readers == 0)
        hand_to(lock, next);
    while (!lock->writer && lock->waiters.first && !lock->waiters.first->is_writer)
        hand_to(lock, lock->waiters.first);
}

/* Waits until the lock is handed to this thread, or until it may have the lock after it was woken to try again. */
static int wait_for_turn(pthread_rwlock_t *lock, bool is_writer, uint64_t deadline)
{
    struct dthreads_thread *thread = self();
    thread->is_writer = is_writer;
    do {
        thread->handed = false;
        if (monitor_sleep_on(&lock->waiters, deadline) == TIMED_OUT) {
            if (!lock->writer)
                hand_over(lock);
            return ETIMEDOUT;
        }
    } while (!thread->handed && !take(lock, is_writer));
    return 0;
}

static int read_until(pthread_rwlock_t *lock, uint64_t deadline)
{
    monitor_enter();
    int code = 0;
    if (lock->writer == self())
        code = EDEADLK;
    else if (!readings_grow())
        code = EAGAIN;
    else if (!take(lock, false))
        code = wait_for_turn(lock, false, deadline);
    if (code == EDEADLK && deadline == NEVER)
        hint_object(HINT_TAKEN_TWICE, lock);
    if (code == 0) {
        reading_begin(lock);
        dthreads_hint_acquire(&lock->writer);
        if (deadline > 0)
            hint_object(HINT_SHARE, lock);
        else
            hint_object(HINT_TRY_SHARE, lock);
    }
    monitor_finish();
    return code;
}

static int write_until(pthread_rwlock_t *lock, uint64_t deadline)
{
    monitor_enter();
    int code = 0;
    if (deadline == NEVER && reading_of(lock))
        hint_object(HINT_WRITE_BY_READER, lock);
    if (lock->writer == self())
        code = EDEADLK;
    else if (!take(lock, true))
        code = wait_for_turn(lock, true, deadline);
    if (code == EDEADLK && deadline == NEVER)
        hint_object(HINT_TAKEN_TWICE, lock);
    if (code == 0) {
        lock_hold(lock);
        dthreads_hint_acquire(&lock->writer);
        dthreads_hint_acquire(&lock->readers);
        if (deadline > 0)
            hint_object(HINT_LOCK, lock);
        else
            hint_object(HINT_TRY_LOCK, lock);
    }
    monitor_finish();
    return code;
}

int pthread_rwlock_rdlock(pthread_rwlock_t *lock)
{
    hint_called_on(lock);
    return read_until(lock, NEVER);
}

int pthread_rwlock_tryrdlock(pthread_rwlock_t *lock)
{
    hint_called_on(lock);
    int code = read_until(lock, 0);
    return code == 0 || code == EAGAIN ? code : EBUSY;
}

static int read_by_clock(pthread_rwlock_t *lock, clockid_t clock, const struct timespec *time)
{
    uint64_t deadline;
    return deadline_of(clock, time, &deadline) ? read_until(lock, deadline) : EINVAL;
}

int pthread_rwlock_clockrdlock(pthread_rwlock_t *lock, clockid_t clock, const struct timespec *time)
{
    hint_called_on(lock);
    return read_by_clock(lock, clock, time);
}

int pthread_rwlock_timedrdlock(pthread_rwlock_t *lock, const struct timespec *time)
{
    hint_called_on(lock);
    return read_by_clock(lock, CLOCK_REALTIME, time);
}

int pthread_rwlock_wrlock(pthread_rwlock_t *lock)
{
    hint_called_on(lock);
    return write_until(lock, NEVER);
}

int pthread_rwlock_trywrlock(pthread_rwlock_t *lock)
{
    hint_called_on(lock);
    int code = write_until(lock, 0);
    return code == 0 ? 0 : EBUSY;
}

static int write_by_clock(pthread_rwlock_t *lock, clockid_t clock, const struct timespec *time)
{
    uint64_t deadline;
    return deadline_of(clock, time, &deadline) ? write_until(lock, deadline) : EINVAL;
}

int pthread_rwlock_clockwrlock(pthread_rwlock_t *lock, clockid_t clock, const struct timespec *time)
{
    hint_called_on(lock);
    return write_by_clock(lock, clock, time);
}

int pthread_rwlock_timedwrlock(pthread_rwlock_t *lock, const struct timespec *time)
{
    hint_called_on(lock);
    return write_by_clock(lock, CLOCK_REALTIME, time);
}

int dthreads_rwlock_downgrade(pthread_rwlock_t *lock);

/* The writer reads on, and no other writer comes between: for Rust's library. */
int dthreads_rwlock_downgrade(pthread_rwlock_t *lock)
{
    hint_called();
    monitor_enter();
    int code = lock->writer != self() ? EPERM : readings_grow() ? 0 : EAGAIN;
    if (code == 0) {
        dthreads_hint_release(&lock->writer);
        hint_object(HINT_UNLOCK, lock);
        hint_object(HINT_TRY_SHARE, lock);
        lock->writer = NULL;
        lock_drop(&own, lock);
        lock->readers++;
        reading_begin(lock);
        hand_over(lock);
    }
    monitor_finish();
    return code;
}

static int unlock(pthread_rwlock_t *lock)
{
    int code = 0;
    monitor_enter();
    struct reading *reading = reading_of(lock);
    if (lock->writer == self()) {
        dthreads_hint_release(&lock->writer);
        hint_object(HINT_UNLOCK, lock);
        lock->writer = NULL;
        lock_drop(&own, lock);
    } else if (reading) {
        dthreads_hint_release(&lock->readers);
        hint_object(HINT_UNLOCK, lock);
        lock->readers--;
        reading_end(reading);
    } else {
        if (lock->writer || lock->readers)
            hint_object(HINT_UNLOCK_OF_ANOTHERS, lock);
        else
            hint_object(HINT_UNLOCK_OF_FREE, lock);
        code = EPERM;
    }
    if (code == 0)
        hand_over(lock);
    monitor_finish();
    return code;
}

int pthread_rwlock_unlock(pthread_rwlock_t *lock)
{
    hint_called_on(lock);
    return unlock(lock);
}

int pthread_rwlock_init(pthread_rwlock_t *lock, const pthread_rwlockattr_t *attributes)
{
    *lock = (pthread_rwlock_t)PTHREAD_RWLOCK_INITIALIZER;
    if (attributes)
        lock->kind = attributes->kind & KIND;
    return 0;
}

/* Frees what the caller still holds, as on Linux; EBUSY if others hold it. */
int pthread_rwlock_destroy(pthread_rwlock_t *lock)
{
    int code = 0;
    if (!lock->writer && !lock->readers)
        return 0;
    hint_called();
    hint_object(HINT_DESTROY_OF_HELD, lock);
    while ((lock->writer || lock->readers) && code == 0)
        code = lock->writer == self() || reading_of(lock) ? unlock(lock) : EBUSY;
    return code == 0 ? 0 : EBUSY;
}

int pthread_rwlockattr_init(pthread_rwlockattr_t *attributes)
{
    attributes->kind = PTHREAD_RWLOCK_DEFAULT_NP;
    return 0;
}

int pthread_rwlockattr_setkind_np(pthread_rwlockattr_t *attributes, int kind)
{
    if (kind != PTHREAD_RWLOCK_PREFER_READER_NP && kind != PTHREAD_RWLOCK_PREFER_WRITER_NP
        && kind != PTHREAD_RWLOCK_PREFER_WRITER_NONRECURSIVE_NP)
        return EINVAL;
    attributes->kind = (attributes->kind & ~KIND) | kind;
    return 0;
}

int pthread_rwlockattr_getkind_np(const pthread_rwlockattr_t *attributes, int *kind)
{
    *kind = attributes->kind & KIND;
    return 0;
}

int pthread_rwlockattr_destroy(pthread_rwlockattr_t *attributes)
{
    (void)attributes;
    return 0;
}

int pthread_rwlockattr_setpshared(pthread_rwlockattr_t *attributes, int shared)
{
    return keep_shared(&attributes->kind, shared);
}

int pthread_rwlockattr_getpshared(const pthread_rwlockattr_t *attributes, int *shared)
{
    *shared = kept_shared(attributes->kind);
    return 0;
}
