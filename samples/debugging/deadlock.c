/* A deadlock: each of two threads holds the mutex that the other one waits for. */
#include <pthread.h>

static pthread_mutex_t left = PTHREAD_MUTEX_INITIALIZER, right = PTHREAD_MUTEX_INITIALIZER;
static pthread_barrier_t both_hold;

static void *take_right(void *argument)
{
    pthread_mutex_lock(&left);
    pthread_barrier_wait(&both_hold);
    pthread_mutex_lock(&right);
    return argument;
}

int main(void)
{
    pthread_t thread;
    pthread_barrier_init(&both_hold, NULL, 2);
    pthread_create(&thread, NULL, take_right, NULL);
    pthread_mutex_lock(&right);
    pthread_barrier_wait(&both_hold);
    pthread_mutex_lock(&left);
    return 0;
}
