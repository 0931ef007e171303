/* A wait that ends by its deadline is taken for one that ended by a signal. */
#include "explore.h"

static pthread_mutex_t mutex = PTHREAD_MUTEX_INITIALIZER;
static pthread_cond_t answered = PTHREAD_COND_INITIALIZER;
static int answer;

static void *reply(void *argument)
{
    for (int i = 0; i < 6; i++)
        sched_yield();
    lock(&mutex);
    answer = 42;
    pthread_cond_signal(&answered);
    unlock(&mutex);
    return argument;
}

int main(void)
{
    struct timespec deadline;
    begin(reply, 0);
    clock_gettime(CLOCK_REALTIME, &deadline);
    deadline.tv_sec += 5;
    int code = 0;
    lock(&mutex);
    while (answer == 0 && code == 0)
        code = pthread_cond_timedwait(&answered, &mutex, &deadline);
#ifdef RIGHT
    must(code != 0 || answer == 42, "no answer");
#else
    must(answer == 42, "no answer");
#endif
    unlock(&mutex);
    join();
}
