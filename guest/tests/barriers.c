/* Barriers: rounds in step, and one serial thread in each. */
#include <errno.h>
#include <pthread.h>
#include <stdio.h>

enum { THREADS = 6, ROUNDS = 50 };

static pthread_barrier_t barriers[10];
static int values[THREADS];
static int serial[THREADS];
static int wrong[THREADS];

static void *run(void *argument)
{
    int me = (int)(long)argument;
    for (int round = 0; round < ROUNDS; round++) {
        values[me] = round;
        serial[me] += pthread_barrier_wait(&barriers[round % 10]) == PTHREAD_BARRIER_SERIAL_THREAD;
        for (int i = 0; i < THREADS; i++)
            wrong[me] += values[i] != round;
        pthread_barrier_wait(&barriers[(round + 5) % 10]);
    }
    return NULL;
}

int main(void)
{
    pthread_t threads[THREADS];
    int sum = 0, all_wrong = 0;
    for (int i = 0; i < 10; i++)
        pthread_barrier_init(&barriers[i], NULL, THREADS);
    for (long i = 0; i < THREADS; i++)
        pthread_create(&threads[i], NULL, run, (void *)i);
    for (int i = 0; i < THREADS; i++) {
        pthread_join(threads[i], NULL);
        sum += serial[i];
        all_wrong += wrong[i];
    }
    printf("serial %d, wrong %d\n", sum, all_wrong);
    printf("count 0 %s\n", pthread_barrier_init(&barriers[0], NULL, 0) == EINVAL ? "EINVAL" : "?");
    pthread_barrier_init(&barriers[0], NULL, 1);
    printf("alone %d\n", pthread_barrier_wait(&barriers[0]) == PTHREAD_BARRIER_SERIAL_THREAD);
    printf("destroy %d\n", pthread_barrier_destroy(&barriers[0]));
    return 0;
}
