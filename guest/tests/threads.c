/* Creating, joining, detaching and ending threads. */
#include <errno.h>
#include <pthread.h>
#include <stdio.h>
#include <string.h>

static __thread int mine = 7;
static pthread_mutex_t mutex = PTHREAD_MUTEX_INITIALIZER;
static int ended;

static void *twice(void *argument)
{
    long number = (long)argument;
    mine += (int)number;
    errno = (int)number;
    return (void *)(number * 2 + (mine == 7 + (int)number) + (errno == (int)number));
}

static void deep(long value)
{
    pthread_exit((void *)value);
}

static void *leaves(void *argument)
{
    deep((long)argument + 1);
    return NULL;
}

static void *counts(void *argument)
{
    pthread_mutex_lock(&mutex);
    ended++;
    pthread_mutex_unlock(&mutex);
    return argument;
}

static void *joins_itself(void *argument)
{
    (void)argument;
    return (void *)(long)pthread_join(pthread_self(), NULL);
}

static void *is_self(void *argument)
{
    return (void *)(long)pthread_equal(*(pthread_t *)argument, pthread_self());
}

int main(void)
{
    pthread_t threads[20];
    void *value;
    long sum = 0;

    for (long i = 0; i < 20; i++)
        pthread_create(&threads[i], NULL, twice, (void *)i);
    for (int i = 0; i < 20; i++) {
        pthread_join(threads[i], &value);
        sum += (long)value;
    }
    printf("sum %ld, mine %d\n", sum, mine);

    pthread_create(&threads[0], NULL, leaves, (void *)41);
    pthread_join(threads[0], &value);
    printf("left with %ld\n", (long)value);

    /* Far more than can live at once. */
    for (int i = 0; i < 600; i++) {
        pthread_create(&threads[0], NULL, counts, NULL);
        pthread_join(threads[0], NULL);
    }
    printf("ended %d\n", ended);

    pthread_create(&threads[0], NULL, joins_itself, NULL);
    pthread_join(threads[0], &value);
    printf("own join %s\n", (long)value == EDEADLK ? "EDEADLK" : "?");

    pthread_create(&threads[0], NULL, is_self, &threads[0]);
    pthread_join(threads[0], &value);
    printf("self %ld, other %d\n", (long)value, pthread_equal(threads[0], pthread_self()));

    pthread_attr_t attributes;
    size_t size;
    int state;
    pthread_attr_init(&attributes);
    printf("small stack %s\n", pthread_attr_setstacksize(&attributes, 100) == EINVAL ? "EINVAL" : "?");
    pthread_attr_setstacksize(&attributes, 300000);
    pthread_attr_getstacksize(&attributes, &size);
    pthread_attr_setdetachstate(&attributes, PTHREAD_CREATE_DETACHED);
    pthread_attr_getdetachstate(&attributes, &state);
    printf("stack %u, detached %d\n", (unsigned)size, state == PTHREAD_CREATE_DETACHED);
    pthread_create(&threads[0], &attributes, counts, NULL);
    pthread_attr_destroy(&attributes);
    pthread_create(&threads[1], NULL, counts, NULL);
    printf("detach %d\n", pthread_detach(threads[1]));
    pthread_exit(NULL);
}
