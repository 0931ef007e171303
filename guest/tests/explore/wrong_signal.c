/* Producers and consumers wait for one condition: a signal may wake one that can't go on. */
#include "explore.h"

enum { EACH = 3 };

static pthread_mutex_t mutex = PTHREAD_MUTEX_INITIALIZER;
static pthread_cond_t changed = PTHREAD_COND_INITIALIZER;
static int items;

static void tell(void)
{
#ifdef RIGHT
    pthread_cond_broadcast(&changed);
#else
    pthread_cond_signal(&changed);
#endif
}

static void *put(void *argument)
{
    for (int i = 0; i < EACH; i++) {
        lock(&mutex);
        while (items == 1)
            pthread_cond_wait(&changed, &mutex);
        items++;
        tell();
        unlock(&mutex);
    }
    return argument;
}

static void *take(void *argument)
{
    for (int i = 0; i < EACH; i++) {
        lock(&mutex);
        while (items == 0)
            pthread_cond_wait(&changed, &mutex);
        items--;
        tell();
        unlock(&mutex);
    }
    return argument;
}

int main(void)
{
    for (int i = 0; i < 2; i++) {
        begin(put, i);
        begin(take, i);
    }
    join();
}
