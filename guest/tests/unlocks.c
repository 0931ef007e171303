/* A normal mutex may be unlocked by another thread, as on a Linux host; the other kinds refuse it. */
#include <errno.h>
#include <pthread.h>
#include <semaphore.h>
#include <stdio.h>

static pthread_mutex_t mutex = PTHREAD_MUTEX_INITIALIZER, careful, second = PTHREAD_MUTEX_INITIALIZER;
static sem_t locked, unlocked;
static int shared;

static void *holds(void *argument)
{
    pthread_mutex_lock(&mutex);
    pthread_mutex_lock(&careful);
    sem_post(&locked);
    sem_wait(&unlocked);
    pthread_mutex_lock(&second);
    shared++;
    pthread_mutex_unlock(&second);
    pthread_mutex_unlock(&careful);
    return argument;
}

static void *ends_with_it(void *argument)
{
    pthread_mutex_lock(&mutex);
    return argument;
}

static void *waits(void *argument)
{
    pthread_mutex_lock(&mutex);
    printf("it is mine\n");
    pthread_mutex_unlock(&mutex);
    return argument;
}

int main(void)
{
    pthread_t thread, waiter;
    pthread_mutexattr_t attributes;
    pthread_mutexattr_init(&attributes);
    pthread_mutexattr_settype(&attributes, PTHREAD_MUTEX_ERRORCHECK);
    pthread_mutex_init(&careful, &attributes);
    sem_init(&locked, 0, 0);
    sem_init(&unlocked, 0, 0);
    pthread_create(&thread, NULL, holds, NULL);
    sem_wait(&locked);
    pthread_create(&waiter, NULL, waits, NULL);
    printf("%s\n", pthread_mutex_unlock(&careful) == EPERM ? "EPERM" : "?");
    int code = pthread_mutex_unlock(&mutex);
    pthread_join(waiter, NULL);
    printf("%d\n", code);
    for (int i = 0; i < 3; i++) {
        printf("%d", pthread_mutex_trylock(&mutex));
        printf("%d", pthread_mutex_unlock(&mutex));
    }
    sem_post(&unlocked);
    pthread_join(thread, NULL);
    printf(" %d\n", shared);
    pthread_create(&thread, NULL, ends_with_it, NULL);
    pthread_join(thread, NULL);
    printf("%s\n", pthread_mutex_trylock(&mutex) == EBUSY ? "held by nobody" : "?");
    pthread_create(&thread, NULL, waits, NULL);
    code = pthread_mutex_unlock(&mutex);
    pthread_join(thread, NULL);
    printf("%d\n", code);
    printf("%d%d\n", pthread_mutex_lock(&mutex), pthread_mutex_unlock(&mutex));
    return 0;
}
