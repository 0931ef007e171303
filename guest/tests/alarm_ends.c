/* An alarm without a handler ends a program whose threads all wait. */
#include <pthread.h>
#include <stdio.h>
#include <unistd.h>

static pthread_mutex_t mutex = PTHREAD_MUTEX_INITIALIZER;

static void *locks(void *argument)
{
    pthread_mutex_lock(&mutex);
    return argument;
}

int main(void)
{
    pthread_t thread;
    pthread_mutex_lock(&mutex);
    pthread_create(&thread, NULL, locks, NULL);
    alarm(2);
    printf("joins\n");
    fflush(stdout);
    pthread_join(thread, NULL);
    printf("joined\n");
    return 0;
}
