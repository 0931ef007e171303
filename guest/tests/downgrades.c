/* A writer of a read-write lock becomes its reader: other readers come in, and no writer was between. */
#include <errno.h>
#include <pthread.h>
#include <stdio.h>
#include <unistd.h>

int dthreads_rwlock_downgrade(pthread_rwlock_t *);

static pthread_rwlock_t lock = PTHREAD_RWLOCK_INITIALIZER;
static pthread_barrier_t together;
static int value, seen[2];

static void *reads(void *place)
{
    pthread_rwlock_rdlock(&lock);
    *(int *)place = value;
    pthread_barrier_wait(&together);
    pthread_rwlock_unlock(&lock);
    return NULL;
}

static void *writes(void *argument)
{
    pthread_rwlock_wrlock(&lock);
    value += 10;
    pthread_rwlock_unlock(&lock);
    return argument;
}

static void with_others(void)
{
    pthread_t readers[2], writer;
    pthread_rwlock_wrlock(&lock);
    for (int i = 0; i < 2; i++)
        pthread_create(&readers[i], NULL, reads, &seen[i]);
    usleep(1000);
    pthread_create(&writer, NULL, writes, NULL);
    usleep(1000);
    value = 1;
    printf("downgrade %d\n", dthreads_rwlock_downgrade(&lock));
    pthread_barrier_wait(&together);
    printf("seen %d %d, value %d\n", seen[0], seen[1], value);
    pthread_rwlock_unlock(&lock);
    for (int i = 0; i < 2; i++)
        pthread_join(readers[i], NULL);
    pthread_join(writer, NULL);
    printf("after the writer %d\n", value);
}

int main(void)
{
    pthread_barrier_init(&together, NULL, 3);
    printf("not held %d\n", dthreads_rwlock_downgrade(&lock) == EPERM);
    pthread_rwlock_rdlock(&lock);
    printf("read %d\n", dthreads_rwlock_downgrade(&lock) == EPERM);
    pthread_rwlock_unlock(&lock);
    pthread_rwlock_wrlock(&lock);
    printf("alone %d, write %d, read %d\n", dthreads_rwlock_downgrade(&lock), pthread_rwlock_trywrlock(&lock) == EBUSY,
           pthread_rwlock_tryrdlock(&lock));
    pthread_rwlock_unlock(&lock);
    pthread_rwlock_unlock(&lock);
    printf("free %d\n", pthread_rwlock_trywrlock(&lock));
    pthread_rwlock_unlock(&lock);
    with_others();
    return 0;
}
