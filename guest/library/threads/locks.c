/* The locks that the C library asks for, all of them recursive. What they guard is the library's own data, so they order nothing of the
 * program. As with a mutex of pthread.h, a thread that has one stays in the monitor. None of these functions delivers signals. */
#include <stdlib.h>
#include "monitor.h"

struct __lock {
    struct dthreads_thread *owner;
    uint32_t count;
    struct dthreads_queue waiters;
};

struct __lock __lock___libc_recursive_mutex;

void __retarget_lock_init_recursive(struct __lock **lock)
{
    *lock = calloc(1, sizeof **lock);
    if (!*lock)
        abort();
}

void __retarget_lock_close_recursive(struct __lock *lock)
{
    free(lock);
}

static void take(struct __lock *lock)
{
    lock->owner = self();
    if (lock->count++ == 0)
        lock_hold(NULL);
}

void __retarget_lock_acquire_recursive(struct __lock *lock)
{
    hint_enter();
    monitor_enter();
    if (lock->owner && lock->owner != self())
        monitor_sleep(&lock->waiters, NEVER, false);
    take(lock);
    monitor_leave();
}

int __retarget_lock_try_acquire_recursive(struct __lock *lock)
{
    monitor_enter();
    bool is_free = !lock->owner || lock->owner == self();
    if (is_free) {
        hint_enter();
        take(lock);
    }
    monitor_leave();
    return is_free;
}

void __retarget_lock_release_recursive(struct __lock *lock)
{
    monitor_enter();
    if (--lock->count == 0) {
        lock_drop(&own, NULL);
        lock->owner = monitor_wake_first(&lock->waiters);
    }
    monitor_leave();
    hint_leave();
}

void __retarget_lock_init(struct __lock **lock)
{
    __retarget_lock_init_recursive(lock);
}

void __retarget_lock_close(struct __lock *lock)
{
    __retarget_lock_close_recursive(lock);
}

void __retarget_lock_acquire(struct __lock *lock)
{
    __retarget_lock_acquire_recursive(lock);
}

int __retarget_lock_try_acquire(struct __lock *lock)
{
    return __retarget_lock_try_acquire_recursive(lock);
}

void __retarget_lock_release(struct __lock *lock)
{
    __retarget_lock_release_recursive(lock);
}
