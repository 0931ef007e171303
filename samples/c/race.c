/* A race: two threads add to one number without a mutex. Each works on a copy of its own, so the additions of one are lost,
 * and always of the same one. */
#include <pthread.h>
#include <stdio.h>

enum { ADDITIONS = 1000 };

int counter;

static void *add(void *argument)
{
    for (int i = 0; i < ADDITIONS; i++)
        counter++;
    return argument;
}

int main(void)
{
    pthread_t threads[2];
    for (int i = 0; i < 2; i++)
        pthread_create(&threads[i], NULL, add, NULL);
    for (int i = 0; i < 2; i++)
        pthread_join(threads[i], NULL);
    printf("counter %d of %d\n", counter, 2 * ADDITIONS);
    return counter != 2 * ADDITIONS;
}
