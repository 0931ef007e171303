/* Misuse: two threads wait for one condition with two mutexes. Right: with one. */
#include "checks.h"

MUTEX(left);
MUTEX(right);
static pthread_cond_t changed = PTHREAD_COND_INITIALIZER;

static void *one(void *argument)
{
    struct timespec late = {.tv_sec = 946684802};
    LOCK(left);
    pthread_cond_timedwait(&changed, &left, &late);
    UNLOCK(left);
    return argument;
}

static void *two(void *argument)
{
    struct timespec soon = {.tv_sec = 946684801};
    pthread_mutex_t *mutex = IF_RIGHT(&left) IF_WRONG(&right);
    let_pass();
    pthread_mutex_lock(mutex);
    pthread_cond_timedwait(&changed, mutex, &soon);
    pthread_mutex_unlock(mutex);
    return argument;
}

int main(void)
{
    both(one, two);
}
