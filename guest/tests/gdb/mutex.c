/* Two threads add to one number under a mutex, three times each. */
#include <pthread.h>

int counter;
static pthread_mutex_t mutex = PTHREAD_MUTEX_INITIALIZER;

static void *add(void *argument)
{
    for (int i = 0; i < 3; i++) {
        pthread_mutex_lock(&mutex);
        counter += *(int *)argument;
        pthread_mutex_unlock(&mutex);
    }
    return NULL;
}

int main(void)
{
    pthread_t threads[2];
    int steps[2] = {1, 10};
    for (int i = 0; i < 2; i++)
        pthread_create(&threads[i], NULL, add, &steps[i]);
    for (int i = 0; i < 2; i++)
        pthread_join(threads[i], NULL);
    return counter;
}
