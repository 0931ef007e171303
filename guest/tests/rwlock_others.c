/* A thread that reads one lock doesn't pass a writer that waits at another. */
#include <pthread.h>
#include <stdio.h>
#include <unistd.h>

static pthread_rwlock_t read_here = PTHREAD_RWLOCK_INITIALIZER, wanted = PTHREAD_RWLOCK_INITIALIZER;

static void *writes(void *argument)
{
    pthread_rwlock_wrlock(&wanted);
    printf("the writer writes\n");
    pthread_rwlock_unlock(&wanted);
    return argument;
}

static void *reads(void *argument)
{
    pthread_rwlock_rdlock(&read_here);
    pthread_rwlock_rdlock(&wanted);
    printf("the reader reads\n");
    pthread_rwlock_unlock(&wanted);
    pthread_rwlock_unlock(&read_here);
    return argument;
}

int main(void)
{
    pthread_t writer, reader;
    pthread_rwlock_rdlock(&wanted);
    pthread_create(&writer, NULL, writes, NULL);
    usleep(1000);
    pthread_create(&reader, NULL, reads, NULL);
    usleep(1000);
    printf("the first reader ends\n");
    pthread_rwlock_unlock(&wanted);
    pthread_join(writer, NULL);
    pthread_join(reader, NULL);
    return 0;
}
