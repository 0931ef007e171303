/* 255 threads live beside the first one; one more is refused, and can be had again later. */
#include <errno.h>
#include <pthread.h>
#include <stdio.h>

static pthread_t threads[300];
static pthread_mutex_t mutex = PTHREAD_MUTEX_INITIALIZER;
static pthread_cond_t condition = PTHREAD_COND_INITIALIZER;
static int go;
static int ran;

static void *waits(void *argument)
{
    pthread_mutex_lock(&mutex);
    while (!go)
        pthread_cond_wait(&condition, &mutex);
    ran++;
    pthread_mutex_unlock(&mutex);
    return argument;
}

int main(void)
{
    int made = 0;
    while (pthread_create(&threads[made], NULL, waits, NULL) == 0)
        made++;
    printf("made %d, then %s\n", made, pthread_create(&threads[made], NULL, waits, NULL) == EAGAIN ? "EAGAIN" : "?");
    pthread_mutex_lock(&mutex);
    go = 1;
    pthread_cond_broadcast(&condition);
    pthread_mutex_unlock(&mutex);
    for (int i = 0; i < made; i++)
        pthread_join(threads[i], NULL);
    printf("ran %d, again %d\n", ran, pthread_create(&threads[0], NULL, waits, NULL));
    pthread_join(threads[0], NULL);

    pthread_attr_t attributes;
    pthread_attr_init(&attributes);
    pthread_attr_setstacksize(&attributes, 60 << 20);
    printf("huge stack %s\n", pthread_create(&threads[0], &attributes, waits, NULL) == EAGAIN ? "EAGAIN" : "?");
    return 0;
}
