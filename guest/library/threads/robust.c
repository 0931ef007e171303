/* Robust mutexes: one whose owner ends becomes free, and the next owner learns of it. */
#include "monitor.h"

void robust_hold(pthread_mutex_t *mutex)
{
    mutex->next = self()->robust;
    self()->robust = mutex;
}

/* A mutex that its new owner frees without having made it consistent is lost: nobody gets it any more. */
void robust_drop(pthread_mutex_t *mutex)
{
    pthread_mutex_t **place = &self()->robust;
    while (*place != mutex)
        place = &(*place)->next;
    *place = mutex->next;
    if (mutex->robust == OWNER_DEAD) {
        mutex->robust = NOT_RECOVERABLE;
        monitor_wake_all(&mutex->waiters);
    }
}

void robust_leave(struct dthreads_thread *thread)
{
    while (thread->robust) {
        pthread_mutex_t *mutex = thread->robust;
        thread->robust = mutex->next;
        dthreads_hint_release(mutex);
        hint_object(HINT_UNLOCK, mutex);
        mutex->robust = OWNER_DEAD;
        lock_drop(&own, mutex);
        mutex->owner = monitor_hand(&mutex->waiters);
    }
}

int pthread_mutex_consistent(pthread_mutex_t *mutex)
{
    monitor_enter();
    int code = mutex->robust == OWNER_DEAD && mutex->owner == self() ? 0 : EINVAL;
    if (code == 0)
        mutex->robust = ROBUST;
    monitor_finish();
    return code;
}

int pthread_mutexattr_setrobust(pthread_mutexattr_t *attributes, int robust)
{
    if (robust != PTHREAD_MUTEX_STALLED && robust != PTHREAD_MUTEX_ROBUST)
        return EINVAL;
    attributes->robust = robust;
    return 0;
}

int pthread_mutexattr_getrobust(const pthread_mutexattr_t *attributes, int *robust)
{
    *robust = attributes->robust;
    return 0;
}
