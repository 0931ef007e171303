/* A wait for a condition ends without a signal. 1: pthread_cond_wait, 2: pthread_cond_timedwait. */
#include <stdbool.h>
#include <time.h>
#include "yield.h"

enum { ROUNDS = 4 };

static pthread_mutex_t mutex = PTHREAD_MUTEX_INITIALIZER;
static pthread_cond_t condition = PTHREAD_COND_INITIALIZER;
static bool is_signalled;
static int status;

static void await(bool is_timed)
{
    struct timespec late = {.tv_sec = 2000000000};
    pthread_mutex_lock(&mutex);
    while (!is_signalled) {
        int code = is_timed ? pthread_cond_timedwait(&condition, &mutex, &late) : pthread_cond_wait(&condition, &mutex);
        if (!is_signalled && code == 0)
            status |= is_timed ? 2 : 1;
    }
    is_signalled = false;
    pthread_mutex_unlock(&mutex);
}

static void *wait_often(void *argument)
{
    for (int i = 0; i < 2 * ROUNDS; i++)
        await(i % 2);
    return argument;
}

static bool is_taken(void)
{
    pthread_mutex_lock(&mutex);
    bool is_so = !is_signalled;
    pthread_mutex_unlock(&mutex);
    return is_so;
}

int main(void)
{
    pthread_t thread;
    pthread_create(&thread, NULL, wait_often, NULL);
    for (int i = 0; i < 2 * ROUNDS; i++) {
        yield(AMPLE);
        pthread_mutex_lock(&mutex);
        is_signalled = true;
        pthread_cond_signal(&condition);
        pthread_mutex_unlock(&mutex);
        while (!is_taken())
            yield(1);
    }
    pthread_join(thread, NULL);
    return status;
}
