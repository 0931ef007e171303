/* A thread that holds a mutex and tries again and again lets others have their turns. */
#include <pthread.h>
#include <semaphore.h>
#include <stdatomic.h>
#include <stdio.h>

static pthread_mutex_t held = PTHREAD_MUTEX_INITIALIZER, other = PTHREAD_MUTEX_INITIALIZER;
static atomic_int flag;
static sem_t semaphore;

static void *sets(void *argument)
{
    pthread_mutex_lock(&other);
    atomic_store(&flag, 1);
    while (atomic_load(&flag) != 2)
        ;
    pthread_mutex_unlock(&other);
    sem_post(&semaphore);
    pthread_mutex_lock(&held);
    printf("had\n");
    pthread_mutex_unlock(&held);
    return argument;
}

int main(void)
{
    pthread_t thread;
    sem_init(&semaphore, 0, 0);
    pthread_mutex_lock(&held);
    pthread_create(&thread, NULL, sets, NULL);
    while (!atomic_load(&flag))
        ;
    printf("seen, %d\n", pthread_mutex_trylock(&other) != 0);
    atomic_store(&flag, 2);
    while (pthread_mutex_trylock(&other) != 0)
        ;
    pthread_mutex_unlock(&other);
    while (sem_trywait(&semaphore) != 0)
        ;
    printf("free\n");
    pthread_mutex_unlock(&held);
    pthread_join(thread, NULL);
    return 0;
}
