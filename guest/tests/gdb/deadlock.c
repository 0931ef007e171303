/* Two threads take two mutexes in opposite orders, and meet at a barrier between: a deadlock. */
#include <pthread.h>

static pthread_mutex_t mutexes[2] = {PTHREAD_MUTEX_INITIALIZER, PTHREAD_MUTEX_INITIALIZER};
static pthread_barrier_t barrier;

static void *cross(void *argument)
{
    int first = *(int *)argument;
    pthread_mutex_lock(&mutexes[first]);
    pthread_barrier_wait(&barrier);
    pthread_mutex_lock(&mutexes[1 - first]);
    return NULL;
}

int main(void)
{
    pthread_t threads[2];
    int order[2] = {0, 1};
    pthread_barrier_init(&barrier, NULL, 2);
    for (int i = 0; i < 2; i++)
        pthread_create(&threads[i], NULL, cross, &order[i]);
    for (int i = 0; i < 2; i++)
        pthread_join(threads[i], NULL);
    return 0;
}
