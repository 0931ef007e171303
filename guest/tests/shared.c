/* Objects that are to be shared between processes, and mutexes that inherit priorities: there is one process, and one priority. */
#include <errno.h>
#include <pthread.h>
#include <semaphore.h>
#include <stdio.h>
#include <time.h>

static pthread_mutex_t mutex;
static pthread_cond_t condition;
static pthread_barrier_t barrier;
static pthread_rwlock_t lock;
static pthread_spinlock_t spin;
static sem_t semaphore;
static int turns, ready;

static void *works(void *argument)
{
    pthread_barrier_wait(&barrier);
    for (int i = 0; i < 20; i++) {
        pthread_rwlock_rdlock(&lock);
        pthread_rwlock_unlock(&lock);
        pthread_spin_lock(&spin);
        pthread_spin_unlock(&spin);
        pthread_mutex_lock(&mutex);
        pthread_mutex_lock(&mutex);
        turns++;
        pthread_mutex_unlock(&mutex);
        pthread_mutex_unlock(&mutex);
    }
    sem_wait(&semaphore);
    pthread_mutex_lock(&mutex);
    ready++;
    pthread_cond_signal(&condition);
    pthread_mutex_unlock(&mutex);
    return argument;
}

int main(void)
{
    int shared, kind, protocol;
    clockid_t clock;
    pthread_mutexattr_t of_mutex;
    pthread_mutexattr_init(&of_mutex);
    printf("%d", pthread_mutexattr_setpshared(&of_mutex, PTHREAD_PROCESS_SHARED));
    printf(" %d", pthread_mutexattr_settype(&of_mutex, PTHREAD_MUTEX_RECURSIVE));
    printf(" %d", pthread_mutexattr_setprotocol(&of_mutex, PTHREAD_PRIO_INHERIT));
    printf(" %d", pthread_mutexattr_setprotocol(&of_mutex, PTHREAD_PRIO_PROTECT) == ENOTSUP);
    pthread_mutexattr_getpshared(&of_mutex, &shared);
    pthread_mutexattr_gettype(&of_mutex, &kind);
    pthread_mutexattr_getprotocol(&of_mutex, &protocol);
    printf(" %d %d %d", shared == PTHREAD_PROCESS_SHARED, kind == PTHREAD_MUTEX_RECURSIVE, protocol == PTHREAD_PRIO_INHERIT);
    printf(" %d\n", pthread_mutexattr_setpshared(&of_mutex, 5) == EINVAL);

    pthread_condattr_t of_condition;
    pthread_condattr_init(&of_condition);
    pthread_condattr_setpshared(&of_condition, PTHREAD_PROCESS_SHARED);
    pthread_condattr_setclock(&of_condition, CLOCK_MONOTONIC);
    pthread_condattr_getpshared(&of_condition, &shared);
    pthread_condattr_getclock(&of_condition, &clock);
    printf("%d %d\n", shared == PTHREAD_PROCESS_SHARED, clock == CLOCK_MONOTONIC);

    pthread_rwlockattr_t of_lock;
    pthread_rwlockattr_init(&of_lock);
    pthread_rwlockattr_getpshared(&of_lock, &shared);
    printf("%d", shared == PTHREAD_PROCESS_PRIVATE);
    pthread_rwlockattr_setpshared(&of_lock, PTHREAD_PROCESS_SHARED);
    pthread_rwlockattr_getpshared(&of_lock, &shared);
    printf(" %d\n", shared == PTHREAD_PROCESS_SHARED);

    pthread_barrierattr_t of_barrier;
    pthread_barrierattr_init(&of_barrier);
    pthread_barrierattr_setpshared(&of_barrier, PTHREAD_PROCESS_SHARED);
    pthread_barrierattr_getpshared(&of_barrier, &shared);
    printf("%d\n", shared == PTHREAD_PROCESS_SHARED);

    printf("%d", pthread_mutex_init(&mutex, &of_mutex));
    printf(" %d", pthread_cond_init(&condition, &of_condition));
    printf(" %d", pthread_rwlock_init(&lock, &of_lock));
    printf(" %d", pthread_barrier_init(&barrier, &of_barrier, 4));
    printf(" %d", pthread_spin_init(&spin, PTHREAD_PROCESS_SHARED));
    printf(" %d\n", sem_init(&semaphore, 1, 0));

    pthread_t threads[4];
    for (int i = 0; i < 4; i++)
        pthread_create(&threads[i], NULL, works, NULL);
    for (int i = 0; i < 4; i++)
        sem_post(&semaphore);
    struct timespec soon;
    clock_gettime(CLOCK_MONOTONIC, &soon);
    soon.tv_sec += 1;
    pthread_mutex_lock(&mutex);
    while (ready < 4)
        pthread_cond_wait(&condition, &mutex);
    printf("%d\n", pthread_cond_timedwait(&condition, &mutex, &soon) == ETIMEDOUT);
    pthread_mutex_unlock(&mutex);
    for (int i = 0; i < 4; i++)
        pthread_join(threads[i], NULL);
    printf("%d %d\n", turns, ready);
    return 0;
}
