/* Robust mutexes: who ends with one leaves it to the next, who makes it consistent or loses it for all. */
#include <errno.h>
#include <pthread.h>
#include <stdio.h>
#include <unistd.h>

static pthread_mutex_t mutex;
static pthread_cond_t condition = PTHREAD_COND_INITIALIZER;

static const char *name_of(int code)
{
    switch (code) {
    case 0:
        return "0";
    case EOWNERDEAD:
        return "EOWNERDEAD";
    case ENOTRECOVERABLE:
        return "ENOTRECOVERABLE";
    case EINVAL:
        return "EINVAL";
    case EPERM:
        return "EPERM";
    default:
        return "?";
    }
}

static void *ends(void *argument)
{
    pthread_mutex_lock(&mutex);
    usleep(5000);
    return argument;
}

static void *waits(void *argument)
{
    int code = pthread_mutex_lock(&mutex);
    printf("waiter: %s\n", name_of(code));
    if (code == 0)
        pthread_mutex_unlock(&mutex);
    return argument;
}

static void end_with_it(void)
{
    pthread_t thread;
    pthread_create(&thread, NULL, ends, NULL);
    pthread_join(thread, NULL);
}

int main(void)
{
    pthread_mutexattr_t attributes;
    pthread_t thread, waiter;
    int robust;
    pthread_mutexattr_init(&attributes);
    pthread_mutexattr_setrobust(&attributes, PTHREAD_MUTEX_ROBUST);
    pthread_mutexattr_getrobust(&attributes, &robust);
    pthread_mutex_init(&mutex, &attributes);
    printf("%d %s\n", robust == PTHREAD_MUTEX_ROBUST, name_of(pthread_mutex_consistent(&mutex)));

    end_with_it();
    printf("%s\n", name_of(pthread_mutex_lock(&mutex)));
    printf("%s\n", name_of(pthread_mutex_consistent(&mutex)));
    printf("%s\n", name_of(pthread_mutex_unlock(&mutex)));
    printf("%s\n", name_of(pthread_mutex_lock(&mutex)));
    printf("%s\n", name_of(pthread_mutex_unlock(&mutex)));

    pthread_create(&thread, NULL, ends, NULL);
    usleep(1000);
    printf("%s\n", name_of(pthread_mutex_lock(&mutex)));
    pthread_join(thread, NULL);
    pthread_mutex_consistent(&mutex);
    pthread_mutex_unlock(&mutex);

    pthread_mutex_lock(&mutex);
    pthread_create(&thread, NULL, ends, NULL);
    struct timespec time;
    clock_gettime(CLOCK_REALTIME, &time);
    time.tv_sec++;
    printf("%s\n", name_of(pthread_cond_timedwait(&condition, &mutex, &time)));
    pthread_join(thread, NULL);
    pthread_create(&waiter, NULL, waits, NULL);
    usleep(5000);
    printf("%s\n", name_of(pthread_mutex_unlock(&mutex)));
    pthread_join(waiter, NULL);
    printf("%s\n", name_of(pthread_mutex_lock(&mutex)));
    printf("%s\n", name_of(pthread_mutex_trylock(&mutex)));
    pthread_mutex_destroy(&mutex);
    pthread_mutex_init(&mutex, &attributes);
    printf("%s\n", name_of(pthread_mutex_trylock(&mutex)));
    printf("%s\n", name_of(pthread_mutex_unlock(&mutex)));
    return 0;
}
