/* Readers and writers, by a mutex and condition variables; writers go first. */
#include <pthread.h>
#include <stdio.h>

enum { READERS = 5, WRITERS = 3, ROUNDS = 30, SIZE = 64 };

static pthread_mutex_t mutex = PTHREAD_MUTEX_INITIALIZER;
static pthread_cond_t may_read = PTHREAD_COND_INITIALIZER, may_write = PTHREAD_COND_INITIALIZER;
static int readers, writers, waiting_writers;
static int text[SIZE];
static int torn[READERS];

static void begin_reading(void)
{
    pthread_mutex_lock(&mutex);
    while (writers || waiting_writers)
        pthread_cond_wait(&may_read, &mutex);
    readers++;
    pthread_mutex_unlock(&mutex);
}

static void end_reading(void)
{
    pthread_mutex_lock(&mutex);
    if (--readers == 0)
        pthread_cond_signal(&may_write);
    pthread_mutex_unlock(&mutex);
}

static void begin_writing(void)
{
    pthread_mutex_lock(&mutex);
    waiting_writers++;
    while (readers || writers)
        pthread_cond_wait(&may_write, &mutex);
    waiting_writers--;
    writers = 1;
    pthread_mutex_unlock(&mutex);
}

static void end_writing(void)
{
    pthread_mutex_lock(&mutex);
    writers = 0;
    pthread_cond_broadcast(&may_read);
    pthread_cond_signal(&may_write);
    pthread_mutex_unlock(&mutex);
}

static void *reads(void *argument)
{
    int me = *(int *)argument;
    for (int i = 0; i < ROUNDS; i++) {
        begin_reading();
        for (int k = 1; k < SIZE; k++)
            torn[me] += text[k] != text[0];
        end_reading();
    }
    return NULL;
}

static void *writes(void *argument)
{
    for (int i = 0; i < ROUNDS; i++) {
        begin_writing();
        for (int k = 0; k < SIZE; k++)
            text[k]++;
        end_writing();
    }
    return argument;
}

int main(void)
{
    pthread_t threads[READERS + WRITERS];
    int numbers[READERS], all = 0;
    for (int i = 0; i < READERS + WRITERS; i++) {
        if (i < READERS)
            numbers[i] = i;
        pthread_create(&threads[i], NULL, i < READERS ? reads : writes, i < READERS ? &numbers[i] : NULL);
    }
    for (int i = 0; i < READERS + WRITERS; i++)
        pthread_join(threads[i], NULL);
    for (int i = 0; i < READERS; i++)
        all += torn[i];
    printf("written %d times, %d torn\n", text[SIZE - 1], all);
    return 0;
}
