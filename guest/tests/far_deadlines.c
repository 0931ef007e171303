/* Waits until times that lie over 584 years away, which the clock can't count: they last until somebody wakes the thread. */
#include <errno.h>
#include <pthread.h>
#include <semaphore.h>
#include <stdint.h>
#include <stdio.h>
#include <time.h>
#include <unistd.h>

static pthread_mutex_t mutex = PTHREAD_MUTEX_INITIALIZER;
static pthread_cond_t condition = PTHREAD_COND_INITIALIZER;
static sem_t semaphore;
static int is_woken;

static void *wakes(void *argument)
{
    sleep(2);
    pthread_mutex_lock(&mutex);
    is_woken = 1;
    pthread_cond_signal(&condition);
    pthread_mutex_unlock(&mutex);
    sleep(2);
    sem_post(&semaphore);
    return argument;
}

static void waits_until(time_t seconds, long nanoseconds)
{
    pthread_t thread;
    struct timespec far = {.tv_sec = seconds, .tv_nsec = nanoseconds};
    is_woken = 0;
    pthread_create(&thread, NULL, wakes, NULL);
    pthread_mutex_lock(&mutex);
    int code = 0;
    while (!is_woken && code == 0)
        code = pthread_cond_timedwait(&condition, &mutex, &far);
    pthread_mutex_unlock(&mutex);
    printf("condition %d %d, ", code, is_woken);
    printf("semaphore %d, ", sem_timedwait(&semaphore, &far));
    printf("join %d\n", pthread_clockjoin_np(thread, NULL, CLOCK_REALTIME, &far));
}

int main(void)
{
    sem_init(&semaphore, 0, 0);
    const time_t epoch = 946684800, longest = 18446744073;
    waits_until(epoch + longest - 1, 999999999);
    waits_until(epoch + longest, 0);
    waits_until(epoch + longest, 709551616);
    waits_until(epoch + longest + 1, 0);
    waits_until(epoch + 2 * longest + 2, 0);
    waits_until(INT64_MAX, 999999999);
    return 0;
}
