/* Another thread gets an object that was freed while one waited for it. 1: a mutex, 2: a semaphore, 4: a read-write lock, 8: a spin lock,
 * 16: the mutex of a condition. */
#include <semaphore.h>
#include <stdbool.h>
#include "yield.h"

static pthread_mutex_t mutex = PTHREAD_MUTEX_INITIALIZER;
static pthread_cond_t condition = PTHREAD_COND_INITIALIZER;
static pthread_rwlock_t lock = PTHREAD_RWLOCK_INITIALIZER;
static pthread_spinlock_t spin;
static sem_t semaphore;
static bool is_signalled;

static void *use_mutex(void *argument)
{
    pthread_mutex_lock(&mutex);
    pthread_mutex_unlock(&mutex);
    return argument;
}

static void *use_semaphore(void *argument)
{
    sem_wait(&semaphore);
    sem_post(&semaphore);
    return argument;
}

static void *use_lock(void *argument)
{
    pthread_rwlock_wrlock(&lock);
    pthread_rwlock_unlock(&lock);
    return argument;
}

static void *use_spin(void *argument)
{
    pthread_spin_lock(&spin);
    pthread_spin_unlock(&spin);
    return argument;
}

static void *use_condition(void *argument)
{
    pthread_mutex_lock(&mutex);
    while (!is_signalled)
        pthread_cond_wait(&condition, &mutex);
    pthread_mutex_unlock(&mutex);
    return argument;
}

static pthread_t waiting(void *(*routine)(void *))
{
    pthread_t thread;
    pthread_create(&thread, NULL, routine, NULL);
    yield(AMPLE);
    return thread;
}

static bool try_mutex(void)
{
    pthread_mutex_lock(&mutex);
    pthread_t thread = waiting(use_mutex);
    pthread_mutex_unlock(&mutex);
    bool is_free = pthread_mutex_trylock(&mutex) == 0;
    if (is_free)
        pthread_mutex_unlock(&mutex);
    pthread_join(thread, NULL);
    return is_free;
}

static bool try_semaphore(void)
{
    pthread_t thread = waiting(use_semaphore);
    sem_post(&semaphore);
    bool is_free = sem_trywait(&semaphore) == 0;
    if (is_free)
        sem_post(&semaphore);
    pthread_join(thread, NULL);
    return is_free;
}

static bool try_lock(void)
{
    pthread_rwlock_wrlock(&lock);
    pthread_t thread = waiting(use_lock);
    pthread_rwlock_unlock(&lock);
    bool is_free = pthread_rwlock_trywrlock(&lock) == 0;
    if (is_free)
        pthread_rwlock_unlock(&lock);
    pthread_join(thread, NULL);
    return is_free;
}

static bool try_spin(void)
{
    pthread_spin_lock(&spin);
    pthread_t thread = waiting(use_spin);
    pthread_spin_unlock(&spin);
    bool is_free = pthread_spin_trylock(&spin) == 0;
    if (is_free)
        pthread_spin_unlock(&spin);
    pthread_join(thread, NULL);
    return is_free;
}

/* The signalled thread waits for the mutex that the signaller holds. */
static bool try_condition(void)
{
    pthread_t thread = waiting(use_condition);
    pthread_mutex_lock(&mutex);
    is_signalled = true;
    pthread_cond_signal(&condition);
    yield(AMPLE);
    pthread_mutex_unlock(&mutex);
    bool is_free = pthread_mutex_trylock(&mutex) == 0;
    if (is_free)
        pthread_mutex_unlock(&mutex);
    pthread_join(thread, NULL);
    return is_free;
}

int main(void)
{
    pthread_spin_init(&spin, PTHREAD_PROCESS_PRIVATE);
    sem_init(&semaphore, 0, 0);
    int status = try_mutex();
    status |= try_semaphore() << 1;
    status |= try_lock() << 2;
    status |= try_spin() << 3;
    return status | try_condition() << 4;
}
