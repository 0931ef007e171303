/* Condition variables: handing over, broadcasts, time-outs. */
#include <errno.h>
#include <pthread.h>
#include <stdio.h>
#include <time.h>

static pthread_mutex_t mutex = PTHREAD_MUTEX_INITIALIZER;
static pthread_cond_t turn = PTHREAD_COND_INITIALIZER;
static pthread_cond_t never = PTHREAD_COND_INITIALIZER;
static int whose, rounds, waiting, gate;

static void *ping(void *argument)
{
    int me = (int)(long)argument;
    pthread_mutex_lock(&mutex);
    for (int i = 0; i < 100; i++) {
        while (whose != me)
            pthread_cond_wait(&turn, &mutex);
        whose = (me + 1) % 3;
        rounds++;
        pthread_cond_broadcast(&turn);
    }
    pthread_mutex_unlock(&mutex);
    return NULL;
}

static void *waits(void *argument)
{
    pthread_mutex_lock(&mutex);
    waiting++;
    while (!gate)
        pthread_cond_wait(&turn, &mutex);
    waiting--;
    pthread_mutex_unlock(&mutex);
    return argument;
}

static int waiters(void)
{
    pthread_mutex_lock(&mutex);
    int count = waiting;
    pthread_mutex_unlock(&mutex);
    return count;
}

int main(void)
{
    pthread_t threads[5];
    struct timespec before, after;

    for (long i = 0; i < 3; i++)
        pthread_create(&threads[i], NULL, ping, (void *)i);
    for (int i = 0; i < 3; i++)
        pthread_join(threads[i], NULL);
    printf("rounds %d\n", rounds);

    for (int i = 0; i < 5; i++)
        pthread_create(&threads[i], NULL, waits, NULL);
    while (waiters() < 5)
        sched_yield();
    pthread_mutex_lock(&mutex);
    gate = 1;
    pthread_mutex_unlock(&mutex);
    for (int i = 0; i < 5; i++)
        pthread_cond_signal(&turn);
    for (int i = 0; i < 5; i++)
        pthread_join(threads[i], NULL);
    printf("waiting %d\n", waiting);

    pthread_mutex_lock(&mutex);
    clock_gettime(CLOCK_REALTIME, &before);
    after = before;
    after.tv_sec += 2;
    int code = pthread_cond_timedwait(&never, &mutex, &after);
    clock_gettime(CLOCK_REALTIME, &after);
    printf("%s after %d s\n", code == ETIMEDOUT ? "ETIMEDOUT" : "?", (int)(after.tv_sec - before.tv_sec));
    after.tv_nsec = 1000000000;
    printf("%s\n", pthread_cond_timedwait(&never, &mutex, &after) == EINVAL ? "EINVAL" : "?");
    pthread_mutex_unlock(&mutex);

    pthread_condattr_t attributes;
    pthread_cond_t steady;
    pthread_condattr_init(&attributes);
    pthread_condattr_setclock(&attributes, CLOCK_MONOTONIC);
    pthread_cond_init(&steady, &attributes);
    clock_gettime(CLOCK_MONOTONIC, &before);
    before.tv_sec++;
    pthread_mutex_lock(&mutex);
    code = pthread_cond_timedwait(&steady, &mutex, &before);
    printf("steady %s\n", code == ETIMEDOUT ? "ETIMEDOUT" : "?");
    pthread_mutex_unlock(&mutex);
    printf("destroy %d\n", pthread_cond_destroy(&steady));
    return 0;
}
