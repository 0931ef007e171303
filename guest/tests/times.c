/* Sleeps in their order, also beside a thread that never sleeps. */
#include <pthread.h>
#include <stdatomic.h>
#include <stdio.h>
#include <sys/time.h>
#include <time.h>
#include <unistd.h>

static pthread_mutex_t mutex = PTHREAD_MUTEX_INITIALIZER;
static int stop, spins;

static void *sleeper(void *argument)
{
    usleep(100000 * (unsigned)(long)argument);
    printf("slept %ld\n", (long)argument);
    return NULL;
}

static void *busy(void *argument)
{
    int is_over = 0;
    while (!is_over) {
        pthread_mutex_lock(&mutex);
        spins++;
        is_over = stop;
        pthread_mutex_unlock(&mutex);
    }
    return argument;
}

int main(void)
{
    pthread_t threads[6];
    struct timespec begin, end, pause = {0, 50000000};
    struct timeval day;
    clock_gettime(CLOCK_MONOTONIC, &begin);
    for (long i = 5; i >= 1; i--)
        pthread_create(&threads[i], NULL, sleeper, (void *)i);
    for (int i = 1; i <= 5; i++)
        pthread_join(threads[i], NULL);
    clock_gettime(CLOCK_MONOTONIC, &end);
    printf("%d tenths\n", (int)((end.tv_sec - begin.tv_sec) * 10 + (end.tv_nsec - begin.tv_nsec) / 100000000));

    pthread_create(&threads[0], NULL, busy, NULL);
    nanosleep(&pause, NULL);
    pthread_mutex_lock(&mutex);
    stop = 1;
    pthread_mutex_unlock(&mutex);
    pthread_join(threads[0], NULL);
    printf("busy %d\n", spins > 10);

    gettimeofday(&day, NULL);
    time_t now = time(NULL);
    printf("day %d\n", now - day.tv_sec <= 1);
    printf("sleep %u\n", sleep(1));
    return 0;
}
