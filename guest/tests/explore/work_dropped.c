/* Workers end when they are told to stop, though there is work left. */
#include "explore.h"

enum { JOBS = 4 };

static pthread_mutex_t mutex = PTHREAD_MUTEX_INITIALIZER;
static pthread_cond_t changed = PTHREAD_COND_INITIALIZER;
static int jobs, done;
static bool stops;

static void *work(void *argument)
{
    lock(&mutex);
    for (;;) {
        while (jobs == 0 && !stops)
            pthread_cond_wait(&changed, &mutex);
#ifdef RIGHT
        if (jobs == 0)
            break;
#else
        if (stops)
            break;
#endif
        jobs--;
        done++;
        unlock(&mutex);
        lock(&mutex);
    }
    unlock(&mutex);
    return argument;
}

static void *submit(void *argument)
{
    for (int i = 0; i < JOBS; i++) {
        lock(&mutex);
        jobs++;
        pthread_cond_signal(&changed);
        unlock(&mutex);
        sched_yield();
        sched_yield();
    }
    for (int i = 0; i < 3; i++)
        sched_yield();
    lock(&mutex);
    stops = true;
    pthread_cond_broadcast(&changed);
    unlock(&mutex);
    return argument;
}

int main(void)
{
    begin(work, 0);
    begin(submit, 0);
    join();
    must(done == JOBS, "work was dropped");
}
