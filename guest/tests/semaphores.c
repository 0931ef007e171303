/* Semaphores. */
#include <errno.h>
#include <pthread.h>
#include <semaphore.h>
#include <stdio.h>
#include <time.h>

static sem_t items, places, zero;
static int slots[4], in, out, sum;
static pthread_mutex_t mutex = PTHREAD_MUTEX_INITIALIZER;

static void *makes(void *argument)
{
    for (int i = 1; i <= 100; i++) {
        sem_wait(&places);
        pthread_mutex_lock(&mutex);
        slots[in++ % 4] = i;
        pthread_mutex_unlock(&mutex);
        sem_post(&items);
    }
    return argument;
}

static void *takes(void *argument)
{
    for (int i = 1; i <= 100; i++) {
        sem_wait(&items);
        pthread_mutex_lock(&mutex);
        sum += slots[out++ % 4];
        pthread_mutex_unlock(&mutex);
        sem_post(&places);
    }
    return argument;
}

static const char *error(int result)
{
    return result == 0 ? "0" : errno == EAGAIN ? "EAGAIN" : errno == ETIMEDOUT ? "ETIMEDOUT" : errno == EOVERFLOW ? "EOVERFLOW"
         : errno == EINVAL ? "EINVAL" : "?";
}

int main(void)
{
    pthread_t threads[6];
    struct timespec time;
    int value;
    sem_init(&items, 0, 0);
    sem_init(&places, 0, 4);
    sem_init(&zero, 0, 0);
    for (int i = 0; i < 6; i++)
        pthread_create(&threads[i], NULL, i % 2 ? makes : takes, NULL);
    for (int i = 0; i < 6; i++)
        pthread_join(threads[i], NULL);
    sem_getvalue(&places, &value);
    printf("sum %d, places %d\n", sum, value);
    printf("try %s\n", error(sem_trywait(&zero)));
    clock_gettime(CLOCK_REALTIME, &time);
    time.tv_sec++;
    printf("timed %s\n", error(sem_timedwait(&zero, &time)));
    sem_post(&zero);
    printf("try %s, timed %s\n", error(sem_trywait(&zero)), error(sem_timedwait(&places, &time)));
    sem_init(&zero, 0, SEM_VALUE_MAX);
    printf("post %s, init %s\n", error(sem_post(&zero)), error(sem_init(&zero, 0, 0x80000000u)));
    printf("destroy %d\n", sem_destroy(&places));
    return 0;
}
