/* The time of a sleeper comes while another thread runs. 1: at an operation of the other thread, whose clock is then the sleeper's
 * deadline. 2: without one, in a few turns. */
#include <stdbool.h>
#include <time.h>
#include <dthreads.h>
#include "yield.h"

enum { FEW = 6 };

static volatile bool is_awake;

static void *sleep_long(void *place)
{
    clock_nanosleep(CLOCK_MONOTONIC, TIMER_ABSTIME, place, NULL);
    is_awake = true;
    return NULL;
}

/* Whether the clock comes to the deadline at an operation. */
static bool try_operations(void)
{
    struct timespec deadline = {.tv_sec = 1000}, now;
    pthread_t thread;
    pthread_create(&thread, NULL, sleep_long, &deadline);
    for (int i = 0; i < AMPLE; i++) {
        clock_gettime(CLOCK_MONOTONIC, &now);
        if (now.tv_sec >= deadline.tv_sec)
            break;
    }
    pthread_join(thread, NULL);
    return now.tv_sec == deadline.tv_sec && now.tv_nsec == 0;
}

static void *sleep_then_tell(void *argument)
{
    struct timespec long_time = {.tv_sec = 10};
    nanosleep(&long_time, NULL);
    is_awake = true;
    return argument;
}

/* Whether a thread that was just made ends its sleep in a few turns in which no operation is done. */
static bool try_turns(void)
{
    pthread_t thread;
    is_awake = false;
    pthread_create(&thread, NULL, sleep_then_tell, NULL);
    for (int i = 0; i < FEW; i++)
        dthreads_sync();
    bool is_so = is_awake;
    pthread_join(thread, NULL);
    return is_so;
}

int main(void)
{
    int status = try_operations();
    for (int i = 0; i < 8; i++)
        status |= try_turns() << 1;
    return status;
}
