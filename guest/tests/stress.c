/* Threads that do everything at random, with what must hold counted. */
#include <pthread.h>
#include <semaphore.h>
#include <stdatomic.h>
#include <stdio.h>
#include <stdlib.h>
#include <time.h>
#include <unistd.h>

enum { THREADS = 12, STEPS = 300, MUTEXES = 5, TICKETS = 3 };

static pthread_mutex_t mutexes[MUTEXES];
static int inside[MUTEXES];
static long counts[MUTEXES];
static pthread_rwlock_t rwlock = PTHREAD_RWLOCK_INITIALIZER;
static int writers_seen;
static atomic_int readers, writers;
static sem_t tickets;
static atomic_int ticket_holders;
static pthread_cond_t conditions[MUTEXES];
static long waits[MUTEXES], time_outs;
static atomic_int wrong, steps, children;

static unsigned next(unsigned *state)
{
    *state = *state * 1103515245u + 12345u;
    return *state >> 16;
}

static void check(int is_right)
{
    if (!is_right)
        atomic_fetch_add(&wrong, 1);
}

static void in_mutex(unsigned *state)
{
    int one = (int)(next(state) % MUTEXES);
    pthread_mutex_lock(&mutexes[one]);
    check(inside[one]++ == 0);
    if (next(state) % 3 == 0)
        usleep(next(state) % 100);
    if (next(state) % 4 == 0 && one + 1 < MUTEXES) {
        pthread_mutex_lock(&mutexes[one + 1]);
        check(inside[one + 1] == 0);
        counts[one + 1]++;
        pthread_mutex_unlock(&mutexes[one + 1]);
    }
    counts[one]++;
    inside[one]--;
    pthread_mutex_unlock(&mutexes[one]);
}

static void in_timed_mutex(unsigned *state)
{
    int one = (int)(next(state) % MUTEXES);
    struct timespec time;
    clock_gettime(CLOCK_REALTIME, &time);
    time.tv_nsec += 50000;
    if (time.tv_nsec >= 1000000000) {
        time.tv_nsec -= 1000000000;
        time.tv_sec++;
    }
    if (next(state) % 2 ? pthread_mutex_timedlock(&mutexes[one], &time) : pthread_mutex_trylock(&mutexes[one]))
        return;
    check(inside[one] == 0);
    counts[one]++;
    pthread_mutex_unlock(&mutexes[one]);
}

static void in_condition(unsigned *state)
{
    int one = (int)(next(state) % MUTEXES);
    struct timespec time;
    pthread_mutex_lock(&mutexes[one]);
    clock_gettime(CLOCK_REALTIME, &time);
    time.tv_sec += 1;
    check(inside[one] == 0);
    waits[one]++;
    int code = pthread_cond_timedwait(&conditions[one], &mutexes[one], &time);
    check(inside[one] == 0);
    waits[one]--;
    counts[one]++;
    if (code != 0 && one == 0)
        time_outs++;
    pthread_mutex_unlock(&mutexes[one]);
}

static void wake(unsigned *state)
{
    int one = (int)(next(state) % MUTEXES);
    if (next(state) % 2)
        pthread_cond_signal(&conditions[one]);
    else
        pthread_cond_broadcast(&conditions[one]);
}

static void in_rwlock(unsigned *state)
{
    if (next(state) % 4 == 0) {
        pthread_rwlock_wrlock(&rwlock);
        check(atomic_fetch_add(&writers, 1) == 0 && atomic_load(&readers) == 0);
        writers_seen++;
        if (next(state) % 2)
            sched_yield();
        atomic_fetch_sub(&writers, 1);
    } else {
        pthread_rwlock_rdlock(&rwlock);
        atomic_fetch_add(&readers, 1);
        check(atomic_load(&writers) == 0);
        if (next(state) % 2)
            usleep(next(state) % 50);
        atomic_fetch_sub(&readers, 1);
    }
    pthread_rwlock_unlock(&rwlock);
}

static void in_semaphore(unsigned *state)
{
    sem_wait(&tickets);
    check(atomic_fetch_add(&ticket_holders, 1) < TICKETS);
    if (next(state) % 2)
        usleep(next(state) % 100);
    atomic_fetch_sub(&ticket_holders, 1);
    sem_post(&tickets);
}

static void *child(void *argument)
{
    int *block = argument;
    atomic_fetch_add(&children, *block);
    *block += 1;
    if (*block % 3 == 0)
        pthread_exit(block);
    return block;
}

static void with_child(unsigned *state)
{
    pthread_t thread;
    int *block = malloc(sizeof *block * (1 + next(state) % 600)), value = (int)(next(state) % 100);
    void *result;
    *block = value;
    if (pthread_create(&thread, NULL, child, block) != 0) {
        free(block);
        return;
    }
    pthread_join(thread, &result);
    check(result == block && *block == value + 1);
    free(block);
}

static void *victim(void *argument)
{
    sleep(100000);
    return argument;
}

static void with_cancelled(unsigned *state)
{
    pthread_t thread;
    void *result;
    if (pthread_create(&thread, NULL, victim, NULL) != 0)
        return;
    if (next(state) % 2)
        usleep(10);
    pthread_cancel(thread);
    pthread_join(thread, &result);
    check(result == PTHREAD_CANCELED);
}

static void *run(void *argument)
{
    unsigned state = (unsigned)(size_t)argument * 77 + 1;
    static void (*const actions[])(unsigned *) = {in_mutex, in_mutex, in_timed_mutex, in_condition, wake, wake, wake, in_rwlock,
                                                  in_semaphore, with_child, with_cancelled};
    for (int i = 0; i < STEPS; i++) {
        actions[next(&state) % (sizeof actions / sizeof *actions)](&state);
        atomic_fetch_add(&steps, 1);
    }
    return NULL;
}

int main(void)
{
    pthread_t threads[THREADS];
    sem_init(&tickets, 0, TICKETS);
    for (int i = 0; i < MUTEXES; i++) {
        pthread_mutex_init(&mutexes[i], NULL);
        pthread_cond_init(&conditions[i], NULL);
    }
    for (size_t i = 0; i < THREADS; i++)
        pthread_create(&threads[i], NULL, run, (void *)i);
    for (int i = 0; i < THREADS; i++)
        pthread_join(threads[i], NULL);
    int value;
    sem_getvalue(&tickets, &value);
    for (int i = 0; i < MUTEXES; i++) {
        check(waits[i] == 0 && inside[i] == 0);
        check(pthread_mutex_destroy(&mutexes[i]) == 0 && pthread_cond_destroy(&conditions[i]) == 0);
    }
    check(readers == 0 && writers == 0 && value == TICKETS && pthread_rwlock_destroy(&rwlock) == 0);
    printf("%d steps, %d wrong\n", steps, wrong);
    return 0;
}
