/* Semaphores with names. */
#include <errno.h>
#include <fcntl.h>
#include <pthread.h>
#include <semaphore.h>
#include <stdio.h>
#include <stdlib.h>

static void *waits(void *argument)
{
    sem_t *semaphore = sem_open("/dthreads-test", 0);
    (void)argument;
    sem_wait(semaphore);
    printf("woken\n");
    sem_close(semaphore);
    return NULL;
}

int main(void)
{
    pthread_t thread;
    int value;
    sem_unlink("/dthreads-test");
    printf("%d %d\n", sem_open("/dthreads-test", 0) == SEM_FAILED, errno == ENOENT);
    sem_t *one = sem_open("/dthreads-test", O_CREAT, 0600, 2), *other = sem_open("/dthreads-test", O_CREAT, 0600, 9);
    printf("%d", one == other);
    printf(" %d", sem_open("/dthreads-test", O_CREAT | O_EXCL, 0600, 1) == SEM_FAILED);
    printf(" %d\n", errno == EEXIST);
    sem_wait(one);
    sem_wait(other);
    sem_getvalue(one, &value);
    printf("%d\n", value);
    pthread_create(&thread, NULL, waits, NULL);
    sem_post(one);
    pthread_join(thread, NULL);
    printf("%d", sem_unlink("/dthreads-test"));
    printf(" %d\n", sem_unlink("/dthreads-test"));
    sem_post(other);
    sem_getvalue(one, &value);
    printf("%d\n", value);
    sem_t *fresh = sem_open("/dthreads-test", O_CREAT, 0600, 7);
    sem_getvalue(fresh, &value);
    printf("%d %d\n", value, fresh == one);
    sem_close(one);
    sem_close(other);
    sem_close(fresh);
    printf("%d\n", sem_unlink("/dthreads-test"));
    return 0;
}
