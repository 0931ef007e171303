/* Sleepers beside threads that compute without a call: the run has a quantum, and the sleepers move the clock. Beside a thread
 * whose calls take no turn, these calls move it. */
#include <pthread.h>
#include <stdio.h>
#include <time.h>
#include <unistd.h>

static volatile int stop, slept;

static void *computes(void *argument)
{
    while (!stop)
        ;
    return argument;
}

static void *writes(void *argument)
{
    FILE *file = fopen("/tmp/texts", "w");
    while (!stop)
        fputs("a text", file);
    fclose(file);
    return argument;
}

static void beside_texts(void)
{
    pthread_t writing;
    stop = 0;
    pthread_create(&writing, NULL, writes, NULL);
    sleep(1);
    stop = 1;
    pthread_join(writing, NULL);
    puts("slept beside texts");
}

static void *sleeps(void *argument)
{
    usleep(300000);
    slept = 1;
    return argument;
}

static void *deadlines(void *argument)
{
    static pthread_mutex_t mutex = PTHREAD_MUTEX_INITIALIZER;
    static pthread_cond_t condition = PTHREAD_COND_INITIALIZER;
    struct timespec time;
    clock_gettime(CLOCK_REALTIME, &time);
    time.tv_sec += 2;
    pthread_mutex_lock(&mutex);
    int code = pthread_cond_timedwait(&condition, &mutex, &time);
    pthread_mutex_unlock(&mutex);
    printf("the deadline came: %d, slept %d\n", code != 0, slept);
    return argument;
}

int main(void)
{
    pthread_t computing[2], sleeping, waiting;
    struct timespec before, after;
    for (int i = 0; i < 2; i++)
        pthread_create(&computing[i], NULL, computes, NULL);
    pthread_create(&sleeping, NULL, sleeps, NULL);
    pthread_create(&waiting, NULL, deadlines, NULL);
    clock_gettime(CLOCK_MONOTONIC, &before);
    usleep(1000);
    sleep(1);
    pthread_join(sleeping, NULL);
    pthread_join(waiting, NULL);
    clock_gettime(CLOCK_MONOTONIC, &after);
    stop = 1;
    for (int i = 0; i < 2; i++)
        pthread_join(computing[i], NULL);
    printf("%ld seconds\n", (long)(after.tv_sec - before.tv_sec));
    beside_texts();
    return 0;
}
