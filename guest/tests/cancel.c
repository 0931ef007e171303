/* Cancellation of both types. */
#include <errno.h>
#include <pthread.h>
#include <semaphore.h>
#include <stdio.h>
#include <unistd.h>

static pthread_mutex_t mutex = PTHREAD_MUTEX_INITIALIZER;
static pthread_cond_t condition = PTHREAD_COND_INITIALIZER;
static sem_t semaphore;
static int ready, deferred;

static void says(void *text)
{
    printf("cleanup %s\n", (const char *)text);
}

static void unlocks(void *lock)
{
    printf("unlock %d\n", pthread_mutex_unlock(lock));
}

static void *waits(void *argument)
{
    (void)argument;
    pthread_mutex_lock(&mutex);
    pthread_cleanup_push(unlocks, &mutex);
    ready = 1;
    while (1)
        pthread_cond_wait(&condition, &mutex);
    pthread_cleanup_pop(1);
    return NULL;
}

static void *sleeps(void *argument)
{
    pthread_cleanup_push(says, "outer");
    pthread_cleanup_push(says, "inner");
    sleep(1000);
    pthread_cleanup_pop(0);
    pthread_cleanup_pop(0);
    return argument;
}

static void *posts(void *argument)
{
    sem_wait(&semaphore);
    return argument;
}

static void *tests(void *argument)
{
    while (1)
        pthread_testcancel();
    return argument;
}

static void *refuses(void *argument)
{
    int old;
    pthread_setcancelstate(PTHREAD_CANCEL_DISABLE, &old);
    usleep(20000);
    printf("still here, state was %d\n", old == PTHREAD_CANCEL_ENABLE);
    pthread_setcancelstate(PTHREAD_CANCEL_ENABLE, NULL);
    pthread_testcancel();
    printf("not reached\n");
    return argument;
}

static void *joins(void *argument)
{
    pthread_join(*(pthread_t *)argument, NULL);
    return NULL;
}

/* Of the asynchronous type: the thread's own cancellation comes at once, and another's when the type is set. */
static void *cancels_itself(void *argument)
{
    int first, second;
    pthread_setcanceltype(PTHREAD_CANCEL_ASYNCHRONOUS, &first);
    pthread_setcanceltype(PTHREAD_CANCEL_ASYNCHRONOUS, &second);
    printf("types %d %d, another %d\n", first == PTHREAD_CANCEL_DEFERRED, second == PTHREAD_CANCEL_ASYNCHRONOUS, pthread_setcanceltype(5, NULL) == EINVAL);
    pthread_setcancelstate(PTHREAD_CANCEL_DISABLE, NULL);
    pthread_cancel(pthread_self());
    printf("disabled\n");
    pthread_cleanup_push(says, "at once");
    pthread_setcancelstate(PTHREAD_CANCEL_ENABLE, NULL);
    printf("not reached\n");
    pthread_cleanup_pop(0);
    return argument;
}

static void *sets_the_type(void *argument)
{
    pthread_setcancelstate(PTHREAD_CANCEL_DISABLE, NULL);
    usleep(20000);
    pthread_setcancelstate(PTHREAD_CANCEL_ENABLE, NULL);
    deferred++;
    pthread_setcanceltype(PTHREAD_CANCEL_ASYNCHRONOUS, NULL);
    printf("not reached\n");
    return argument;
}

static void cancelled(const char *name, pthread_t thread)
{
    void *value;
    usleep(5000);
    int code = pthread_cancel(thread);
    pthread_join(thread, &value);
    printf("%s: %d %s\n", name, code, value == PTHREAD_CANCELED ? "cancelled" : "not cancelled");
}

int main(void)
{
    pthread_t thread, other;
    sem_init(&semaphore, 0, 0);
    pthread_create(&thread, NULL, waits, NULL);
    cancelled("condition", thread);
    pthread_create(&thread, NULL, sleeps, NULL);
    cancelled("sleep", thread);
    pthread_create(&thread, NULL, posts, NULL);
    cancelled("semaphore", thread);
    pthread_create(&thread, NULL, tests, NULL);
    cancelled("test", thread);
    pthread_create(&thread, NULL, refuses, NULL);
    cancelled("refusal", thread);
    pthread_create(&other, NULL, posts, NULL);
    pthread_create(&thread, NULL, joins, &other);
    cancelled("join", thread);
    pthread_create(&thread, NULL, sets_the_type, NULL);
    cancelled("type", thread);
    printf("deferred %d\n", deferred);
    void *value;
    pthread_create(&thread, NULL, cancels_itself, NULL);
    pthread_join(thread, &value);
    printf("itself: %d\n", value == PTHREAD_CANCELED);
    sem_post(&semaphore);
    printf("other %d\n", pthread_join(other, NULL));
    printf("free %d\n", pthread_mutex_trylock(&mutex));
    return 0;
}
