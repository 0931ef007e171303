/* The program of race.c with a mutex around each addition. */
#include <pthread.h>
#include <stdio.h>

enum { ADDITIONS = 1000 };

int counter;
static pthread_mutex_t mutex = PTHREAD_MUTEX_INITIALIZER;

static void *add(void *argument)
{
    for (int i = 0; i < ADDITIONS; i++) {
        pthread_mutex_lock(&mutex);
        counter++;
        pthread_mutex_unlock(&mutex);
    }
    return argument;
}

int main(void)
{
    pthread_t threads[2];
    for (int i = 0; i < 2; i++)
        pthread_create(&threads[i], NULL, add, NULL);
    for (int i = 0; i < 2; i++)
        pthread_join(threads[i], NULL);
    printf("counter %d of %d\n", counter, 2 * ADDITIONS);
    return counter != 2 * ADDITIONS;
}
