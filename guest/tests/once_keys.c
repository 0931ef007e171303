/* What is done once, and thread-specific data with destructors. */
#include <errno.h>
#include <pthread.h>
#include <stdio.h>
#include <stdlib.h>
#include <unistd.h>

static pthread_once_t once = PTHREAD_ONCE_INIT;
static pthread_key_t key, stubborn;
static int begun, done;
static pthread_mutex_t mutex = PTHREAD_MUTEX_INITIALIZER;
static int destroyed, rounds;

static void initialise(void)
{
    begun++;
    usleep(10000);
    done = 42;
}

static void destroy(void *value)
{
    pthread_mutex_lock(&mutex);
    destroyed += *(int *)value;
    pthread_mutex_unlock(&mutex);
    free(value);
}

static void comes_back(void *value)
{
    rounds++;
    pthread_setspecific(stubborn, value);
}

static void *run(void *argument)
{
    int *value = malloc(sizeof *value);
    pthread_once(&once, initialise);
    *value = (int)(long)argument;
    void *before = pthread_getspecific(key);
    pthread_setspecific(key, value);
    return (void *)(long)(done == 42 && before == NULL && pthread_getspecific(key) == value);
}

static void *stays(void *argument)
{
    pthread_setspecific(stubborn, argument);
    return NULL;
}

int main(void)
{
    pthread_t threads[8];
    void *value;
    long right = 0;
    pthread_key_create(&key, destroy);
    for (long i = 0; i < 8; i++)
        pthread_create(&threads[i], NULL, run, (void *)(i + 1));
    for (int i = 0; i < 8; i++) {
        pthread_join(threads[i], &value);
        right += (long)value;
    }
    printf("begun %d, right %ld, destroyed %d\n", begun, right, destroyed);

    pthread_key_create(&stubborn, comes_back);
    pthread_create(&threads[0], NULL, stays, &threads);
    pthread_join(threads[0], NULL);
    printf("rounds %d\n", rounds);

    pthread_setspecific(key, &rounds);
    pthread_key_delete(key);
    printf("deleted %s\n", pthread_setspecific(key, &rounds) == EINVAL ? "EINVAL" : "?");
    pthread_key_create(&key, NULL);
    printf("new key %s\n", pthread_getspecific(key) == NULL ? "empty" : "?");

    int count = 0;
    pthread_key_t more;
    while (count < 5000 && pthread_key_create(&more, NULL) == 0)
        count++;
    printf("limit %d\n", count + 2 >= 128);
    return 0;
}
