/* Mutexes of each kind, held across joins, sleeps and barriers. */
#include <errno.h>
#include <pthread.h>
#include <stdio.h>
#include <time.h>
#include <unistd.h>

static pthread_mutex_t many[200];
static pthread_mutex_t normal = PTHREAD_MUTEX_INITIALIZER;
static pthread_mutex_t recursive, checked;
static pthread_barrier_t barrier;
static int counters[200];
static int order[8], place;

static const char *name(int code)
{
    return code == 0 ? "0" : code == EBUSY ? "EBUSY" : code == EPERM ? "EPERM" : code == EDEADLK ? "EDEADLK"
         : code == ETIMEDOUT ? "ETIMEDOUT" : code == EINVAL ? "EINVAL" : "?";
}

static void *adds(void *argument)
{
    for (int i = 0; i < 400; i++) {
        pthread_mutex_lock(&many[i % 200]);
        counters[i % 200]++;
        pthread_mutex_unlock(&many[i % 200]);
    }
    return argument;
}

static void *tries(void *argument)
{
    (void)argument;
    printf("other: try %s, unlock checked %s, recursive %s\n", name(pthread_mutex_trylock(&normal)),
           name(pthread_mutex_unlock(&checked)), name(pthread_mutex_unlock(&recursive)));
    return NULL;
}

static void *takes(void *argument)
{
    usleep(1000 * (unsigned)(long)argument);
    pthread_mutex_lock(&normal);
    order[place++] = (int)(long)argument;
    pthread_mutex_unlock(&normal);
    return NULL;
}

static void *holds_at_barrier(void *argument)
{
    pthread_mutex_t *mutex = argument;
    pthread_mutex_lock(mutex);
    pthread_barrier_wait(&barrier);
    pthread_mutex_unlock(mutex);
    return NULL;
}

static void initialise(void)
{
    pthread_mutexattr_t attributes;
    pthread_mutexattr_init(&attributes);
    pthread_mutexattr_settype(&attributes, PTHREAD_MUTEX_RECURSIVE);
    pthread_mutex_init(&recursive, &attributes);
    pthread_mutexattr_settype(&attributes, PTHREAD_MUTEX_ERRORCHECK);
    pthread_mutex_init(&checked, &attributes);
    printf("kind %s\n", name(pthread_mutexattr_settype(&attributes, 77)));
    for (int i = 0; i < 200; i++)
        pthread_mutex_init(&many[i], NULL);
}

int main(void)
{
    pthread_t threads[8];
    struct timespec soon;
    initialise();

    for (int i = 0; i < 4; i++)
        pthread_create(&threads[i], NULL, adds, NULL);
    for (int i = 0; i < 4; i++)
        pthread_join(threads[i], NULL);
    int wrong = 0;
    for (int i = 0; i < 200; i++)
        wrong += counters[i] != 8;
    printf("wrong %d\n", wrong);

    pthread_mutex_lock(&normal);
    pthread_mutex_lock(&recursive);
    pthread_mutex_lock(&recursive);
    pthread_mutex_lock(&checked);
    printf("again: checked %s, recursive %s\n", name(pthread_mutex_lock(&checked)), name(pthread_mutex_trylock(&recursive)));
    pthread_create(&threads[0], NULL, tries, NULL);
    pthread_join(threads[0], NULL);
    for (int i = 0; i < 3; i++)
        pthread_mutex_unlock(&recursive);
    printf("fourth unlock %s, destroy held %s\n", name(pthread_mutex_unlock(&recursive)), name(pthread_mutex_destroy(&normal)));
    pthread_mutex_unlock(&checked);

    for (long i = 0; i < 4; i++)
        pthread_create(&threads[i], NULL, takes, (void *)(4 - i));
    usleep(100000);
    clock_gettime(CLOCK_REALTIME, &soon);
    pthread_mutex_unlock(&normal);
    for (int i = 0; i < 4; i++)
        pthread_join(threads[i], NULL);
    printf("order %d %d %d %d\n", order[0], order[1], order[2], order[3]);

    pthread_mutex_lock(&checked);
    soon.tv_sec++;
    printf("timed own %s\n", name(pthread_mutex_timedlock(&checked, &soon)));
    printf("timed free %s\n", name(pthread_mutex_timedlock(&normal, &soon)));
    pthread_mutex_unlock(&normal);

    pthread_barrier_init(&barrier, NULL, 3);
    for (int i = 0; i < 3; i++)
        pthread_create(&threads[i], NULL, holds_at_barrier, &many[i]);
    for (int i = 0; i < 3; i++)
        pthread_join(threads[i], NULL);
    printf("destroy %s\n", name(pthread_mutex_destroy(&many[0])));
    return 0;
}
