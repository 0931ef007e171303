/* Threads of C11. */
#include <threads.h>
#include <stdlib.h>
#include <stdint.h>
#include "monitor.h"

static int result_of(int code)
{
    switch (code) {
    case 0:
        return thrd_success;
    case EBUSY:
        return thrd_busy;
    case ETIMEDOUT:
        return thrd_timedout;
    case EAGAIN:
    case ENOMEM:
        return thrd_nomem;
    default:
        return thrd_error;
    }
}

struct thread_start {
    thrd_start_t start;
    void *argument;
};

static void *begin(void *place)
{
    struct thread_start beginning = *(struct thread_start *)place;
    free(place);
    thread_leave((const void *)(uintptr_t)beginning.start, (void *)(intptr_t)beginning.start(beginning.argument));
}

int thrd_create(thrd_t *thread, thrd_start_t start, void *argument)
{
    struct thread_start *beginning = malloc(sizeof *beginning);
    if (!beginning)
        return thrd_nomem;
    *beginning = (struct thread_start){start, argument};
    int code = pthread_create(thread, NULL, begin, beginning);
    if (code != 0)
        free(beginning);
    return result_of(code);
}

int thrd_join(thrd_t thread, int *result)
{
    void *value;
    int code = pthread_join(thread, &value);
    if (code == 0 && result)
        *result = (int)(intptr_t)value;
    return result_of(code);
}

int thrd_detach(thrd_t thread)
{
    return result_of(pthread_detach(thread));
}

thrd_t thrd_current(void)
{
    return pthread_self();
}

int thrd_equal(thrd_t one, thrd_t other)
{
    return one == other;
}

void thrd_exit(int result)
{
    thread_leave(CALL_PLACE, (void *)(intptr_t)result);
}

int thrd_sleep(const struct timespec *time, struct timespec *rest)
{
    return nanosleep(time, rest) == 0 ? 0 : -2;
}

void thrd_yield(void)
{
    sched_yield();
}

int mtx_init(mtx_t *mutex, int type)
{
    pthread_mutexattr_t attributes = {.kind = type & mtx_recursive ? PTHREAD_MUTEX_RECURSIVE : PTHREAD_MUTEX_NORMAL};
    return result_of(pthread_mutex_init(mutex, &attributes));
}

void mtx_destroy(mtx_t *mutex)
{
    pthread_mutex_destroy(mutex);
}

int mtx_lock(mtx_t *mutex)
{
    hint_called_on(mutex);
    return result_of(mutex_lock(mutex));
}

int mtx_timedlock(mtx_t *restrict mutex, const struct timespec *restrict time)
{
    hint_called_on(mutex);
    return result_of(mutex_lock_by_clock(mutex, CLOCK_REALTIME, time));
}

int mtx_trylock(mtx_t *mutex)
{
    hint_called_on(mutex);
    return result_of(mutex_try(mutex));
}

int mtx_unlock(mtx_t *mutex)
{
    hint_called_on(mutex);
    return result_of(mutex_unlock(mutex));
}

int cnd_init(cnd_t *condition)
{
    return result_of(pthread_cond_init(condition, NULL));
}

void cnd_destroy(cnd_t *condition)
{
    pthread_cond_destroy(condition);
}

int cnd_signal(cnd_t *condition)
{
    return result_of(pthread_cond_signal(condition));
}

int cnd_broadcast(cnd_t *condition)
{
    return result_of(pthread_cond_broadcast(condition));
}

int cnd_wait(cnd_t *condition, mtx_t *mutex)
{
    hint_called_on(condition);
    look_at(mutex);
    return result_of(condition_wait(condition, mutex));
}

int cnd_timedwait(cnd_t *restrict condition, mtx_t *restrict mutex, const struct timespec *restrict time)
{
    hint_called_on(condition);
    look_at(mutex);
    return result_of(condition_wait_by_clock(condition, mutex, condition->clock, time));
}

int tss_create(tss_t *key, tss_dtor_t destructor)
{
    return result_of(pthread_key_create(key, destructor));
}

void tss_delete(tss_t key)
{
    pthread_key_delete(key);
}

void *tss_get(tss_t key)
{
    return pthread_getspecific(key);
}

int tss_set(tss_t key, void *value)
{
    return result_of(pthread_setspecific(key, value));
}

void call_once(once_flag *once, void (*routine)(void))
{
    pthread_once(once, routine);
}
