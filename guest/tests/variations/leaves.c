/* 1: a thread finds a mutex held by another one that waits for nothing. */
#include <pthread.h>

enum { TIMES = 20 };

static pthread_mutex_t outer = PTHREAD_MUTEX_INITIALIZER, inner = PTHREAD_MUTEX_INITIALIZER;
static int status;

static void *hold(void *argument)
{
    for (int i = 0; i < TIMES; i++) {
        pthread_mutex_lock(&outer);
        pthread_mutex_lock(&inner);
        pthread_mutex_unlock(&inner);
        pthread_mutex_unlock(&outer);
    }
    return argument;
}

int main(void)
{
    pthread_t holder;
    pthread_create(&holder, NULL, hold, NULL);
    for (int i = 0; i < TIMES; i++)
        if (pthread_mutex_trylock(&outer) == 0)
            pthread_mutex_unlock(&outer);
        else
            status = 1;
    pthread_join(holder, NULL);
    return status;
}
