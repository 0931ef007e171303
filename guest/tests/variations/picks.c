/* 1: a semaphore wakes another one than the first that waits. 2: so does a mutex. 4: so does a condition. */
#include <semaphore.h>
#include "yield.h"

enum { THREADS = 3 };

static sem_t semaphore;
static pthread_mutex_t mutex = PTHREAD_MUTEX_INITIALIZER, other = PTHREAD_MUTEX_INITIALIZER;
static pthread_cond_t condition = PTHREAD_COND_INITIALIZER;
static int through, order[THREADS], is_woken[THREADS], signals;

static void pass(int me)
{
    order[through++] = me;
}

static void *wait_for_post(void *me)
{
    sem_wait(&semaphore);
    pass((int)(long)me);
    return NULL;
}

static void *wait_for_mutex(void *me)
{
    pthread_mutex_lock(&mutex);
    pass((int)(long)me);
    pthread_mutex_unlock(&mutex);
    return NULL;
}

/* A wait that ends without a signal loses its place: then the order tells nothing, and the last one passes last. */
static void *wait_for_signal(void *me)
{
    pthread_mutex_lock(&other);
    pthread_cond_wait(&condition, &other);
    is_woken[(long)me] = signals;
    pthread_mutex_unlock(&other);
    return NULL;
}

/* Begins threads that wait one after the other. */
static void begin(pthread_t *threads, void *(*routine)(void *))
{
    through = 0;
    for (long i = 0; i < THREADS; i++) {
        pthread_create(&threads[i], NULL, routine, (void *)i);
        yield(AMPLE);
    }
}

static void join(pthread_t *threads)
{
    for (int i = 0; i < THREADS; i++)
        pthread_join(threads[i], NULL);
}

static int try_semaphore(void)
{
    pthread_t threads[THREADS];
    begin(threads, wait_for_post);
    for (int i = 0; i < THREADS; i++) {
        sem_post(&semaphore);
        yield(AMPLE);
    }
    join(threads);
    return order[0] != 0;
}

static int try_mutex(void)
{
    pthread_t threads[THREADS];
    pthread_mutex_lock(&mutex);
    begin(threads, wait_for_mutex);
    pthread_mutex_unlock(&mutex);
    join(threads);
    return order[0] != 0;
}

static int try_condition(void)
{
    pthread_t threads[THREADS];
    begin(threads, wait_for_signal);
    signals = 1;
    pthread_cond_signal(&condition);
    yield(AMPLE);
    signals = 2;
    pthread_cond_broadcast(&condition);
    join(threads);
    return is_woken[0] == 2 && is_woken[1] + is_woken[2] == 3;
}

int main(void)
{
    sem_init(&semaphore, 0, 0);
    int by_semaphore = try_semaphore(), by_mutex = try_mutex(), by_condition = try_condition();
    return by_semaphore | by_mutex << 1 | by_condition << 2;
}
