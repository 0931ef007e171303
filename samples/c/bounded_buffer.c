/* A bounded buffer between makers and takers, with condition variables. */
#include <pthread.h>
#include <stdio.h>

enum { MAKERS = 3, TAKERS = 2, ITEMS = 60, PLACES = 4 };

static pthread_mutex_t mutex = PTHREAD_MUTEX_INITIALIZER;
static pthread_cond_t has_item = PTHREAD_COND_INITIALIZER;
static pthread_cond_t has_place = PTHREAD_COND_INITIALIZER;
static int buffer[PLACES], first, count;
static int taken, sums[TAKERS];

static void put(int item)
{
    pthread_mutex_lock(&mutex);
    while (count == PLACES)
        pthread_cond_wait(&has_place, &mutex);
    buffer[(first + count++) % PLACES] = item;
    pthread_cond_signal(&has_item);
    pthread_mutex_unlock(&mutex);
}

/* The next item, or 0 when all were taken. */
static int take(void)
{
    int item = 0;
    pthread_mutex_lock(&mutex);
    while (count == 0 && taken < MAKERS * ITEMS)
        pthread_cond_wait(&has_item, &mutex);
    if (count > 0) {
        item = buffer[first];
        first = (first + 1) % PLACES;
        count--;
        if (++taken == MAKERS * ITEMS)
            pthread_cond_broadcast(&has_item);
        pthread_cond_signal(&has_place);
    }
    pthread_mutex_unlock(&mutex);
    return item;
}

static void *make(void *argument)
{
    for (int i = 1; i <= ITEMS; i++)
        put(i);
    return argument;
}

static void *use(void *argument)
{
    int *sum = argument;
    for (int item = take(); item != 0; item = take())
        *sum += item;
    return NULL;
}

int main(void)
{
    pthread_t threads[MAKERS + TAKERS];
    int sum = 0, wanted = MAKERS * ITEMS * (ITEMS + 1) / 2;
    for (int i = 0; i < MAKERS + TAKERS; i++)
        pthread_create(&threads[i], NULL, i < MAKERS ? make : use, i < MAKERS ? NULL : &sums[i - MAKERS]);
    for (int i = 0; i < MAKERS + TAKERS; i++)
        pthread_join(threads[i], NULL);
    for (int i = 0; i < TAKERS; i++) {
        printf("taker %d: %d\n", i, sums[i]);
        sum += sums[i];
    }
    printf("sum %d of %d\n", sum, wanted);
    return sum != wanted;
}
