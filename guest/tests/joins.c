/* Joins with and without an end, a thread that is detached while another one joins it, and the level of concurrency. */
#define _GNU_SOURCE
#include <errno.h>
#include <pthread.h>
#include <stdio.h>
#include <time.h>
#include <unistd.h>

static pthread_t slow;

static void *sleeps(void *argument)
{
    usleep(1000);
    return argument;
}

static void *joins(void *argument)
{
    void *value = NULL;
    (void)argument;
    int code = pthread_join(slow, &value);
    printf("the joiner got %d %s\n", code, (char *)value);
    return NULL;
}

static void *nothing(void *argument)
{
    usleep(5000);
    return argument;
}

int main(void)
{
    pthread_t thread, joiner, stranger;
    void *value = NULL;
    struct timespec past = {1, 0};
    pthread_create(&thread, NULL, sleeps, "slept");
    printf("%s\n", pthread_timedjoin_np(thread, &value, &past) == ETIMEDOUT ? "not yet" : "?");
    printf("%d\n", pthread_timedjoin_np(thread, &value, NULL));
    printf("%s\n", (char *)value);
    pthread_create(&thread, NULL, sleeps, "slept again");
    printf("%s\n", pthread_clockjoin_np(thread, &value, CLOCK_MONOTONIC, &(struct timespec){0, 1}) == ETIMEDOUT ? "not yet" : "?");
    printf("%d\n", pthread_clockjoin_np(thread, &value, CLOCK_MONOTONIC, NULL));
    printf("%s\n", (char *)value);

    pthread_create(&slow, NULL, sleeps, "its value");
    pthread_create(&joiner, NULL, joins, NULL);
    usleep(500);
    printf("detached: %d\n", pthread_detach(slow));
    usleep(2000);
    pthread_create(&stranger, NULL, nothing, NULL);
    pthread_join(joiner, NULL);
    pthread_join(stranger, NULL);

    printf("%d", pthread_setconcurrency(8));
    printf(" %d", pthread_getconcurrency());
    printf(" %d\n", pthread_setconcurrency(-1) == EINVAL);
    return 0;
}
