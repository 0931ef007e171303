/* Calls that needn't wait end a thread that is to be cancelled, too. */
#include <pthread.h>
#include <semaphore.h>
#include <stdio.h>
#include <time.h>
#include <unistd.h>

static sem_t start, semaphore;

static void waits(void)
{
    sem_wait(&semaphore);
}

static void waits_for_a_time(void)
{
    sem_timedwait(&semaphore, &(struct timespec){2000000000, 0});
}

static void tries(void)
{
    sem_trywait(&semaphore);
}

static void writes(void)
{
    write(1, "", 0);
}

static void reads(void)
{
    char byte;
    read(0, &byte, 0);
}

static void *runs(void *argument)
{
    void (*function)(void) = *(void (**)(void))argument;
    int state;
    pthread_setcancelstate(PTHREAD_CANCEL_DISABLE, &state);
    sem_wait(&start);
    pthread_setcancelstate(PTHREAD_CANCEL_ENABLE, &state);
    function();
    return NULL;
}

static void show(const char *name, void (*function)(void))
{
    pthread_t thread;
    void *value;
    pthread_create(&thread, NULL, runs, &function);
    pthread_cancel(thread);
    sem_post(&start);
    pthread_join(thread, &value);
    printf("%s: %s\n", name, value == PTHREAD_CANCELED ? "cancelled" : "goes on");
}

int main(void)
{
    sem_init(&start, 0, 0);
    sem_init(&semaphore, 0, 100);
    show("sem_wait", waits);
    show("sem_timedwait", waits_for_a_time);
    show("sem_trywait", tries);
    show("write", writes);
    show("read", reads);
    int value;
    sem_getvalue(&semaphore, &value);
    printf("%d left\n", value);
    return 0;
}
