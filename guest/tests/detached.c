/* Many detached threads, one after the other, without waiting for any. */
#include <pthread.h>
#include <stdio.h>

enum { THREADS = 1000 };

static pthread_mutex_t mutex = PTHREAD_MUTEX_INITIALIZER;
static pthread_cond_t condition = PTHREAD_COND_INITIALIZER;
static int ended;

static void *run(void *argument)
{
    pthread_mutex_lock(&mutex);
    ended++;
    pthread_cond_signal(&condition);
    pthread_mutex_unlock(&mutex);
    return argument;
}

int main(void)
{
    pthread_attr_t attributes;
    pthread_t thread;
    int refused = 0;
    pthread_attr_init(&attributes);
    pthread_attr_setdetachstate(&attributes, PTHREAD_CREATE_DETACHED);
    for (int i = 0; i < THREADS; i++)
        refused += pthread_create(&thread, &attributes, run, NULL) != 0;
    pthread_mutex_lock(&mutex);
    while (ended < THREADS)
        pthread_cond_wait(&condition, &mutex);
    pthread_mutex_unlock(&mutex);
    printf("refused %d, ended %d\n", refused, ended);
    return 0;
}
