/* A barrier of one's own is used again: who comes to the next round first changes what the others of this one wait for. */
#include "explore.h"

enum { THREADS = 3, ROUNDS = 3 };

static pthread_mutex_t mutex = PTHREAD_MUTEX_INITIALIZER;
static pthread_cond_t all_came = PTHREAD_COND_INITIALIZER;
static int came, round;

static void meet(void)
{
    lock(&mutex);
    int mine = round;
    if (++came == THREADS) {
        came = 0;
        round++;
        pthread_cond_broadcast(&all_came);
    }
#ifdef RIGHT
    while (round == mine)
        pthread_cond_wait(&all_came, &mutex);
#else
    while (came != 0 && mine >= 0)
        pthread_cond_wait(&all_came, &mutex);
#endif
    unlock(&mutex);
}

static void *work(void *argument)
{
    for (int i = 0; i < ROUNDS; i++)
        meet();
    return argument;
}

int main(void)
{
    for (int i = 0; i < THREADS; i++)
        begin(work, i);
    join();
}
