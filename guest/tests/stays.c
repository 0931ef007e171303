/* Stays in the monitor: no other thread's operation comes between those of a stay, and a thread in one waits as any other does. */
#include <pthread.h>
#include <semaphore.h>
#include <stdatomic.h>
#include <stdio.h>

void dthreads_stay_begin(void);
void dthreads_stay_end(void);
void dthreads_stay_on(void);

enum {
    THREADS = 4,
    TIMES = 50
};

static _Atomic int count, rounds;
static sem_t asked, answered;

static void *adds(void *argument)
{
    for (int i = 0; i < TIMES; i++) {
        dthreads_stay_begin();
        int seen = atomic_load(&count);
        atomic_store(&count, seen + 1);
        dthreads_stay_end();
    }
    return argument;
}

/* Waits in a stay within another one. */
static void *answers(void *argument)
{
    dthreads_stay_begin();
    for (int i = 0; i < TIMES; i++) {
        dthreads_stay_begin();
        sem_wait(&asked);
        atomic_fetch_add(&rounds, 1);
        sem_post(&answered);
        dthreads_stay_end();
    }
    dthreads_stay_end();
    return argument;
}

/* Its last stay goes on up to the end. */
static void *ends(void *argument)
{
    dthreads_stay_begin();
    atomic_fetch_add(&count, 1);
    dthreads_stay_on();
    return argument;
}

static void ask(void)
{
    pthread_t other;
    pthread_create(&other, NULL, answers, NULL);
    for (int i = 0; i < TIMES; i++) {
        sem_post(&asked);
        sem_wait(&answered);
    }
    pthread_join(other, NULL);
    printf("rounds %d\n", atomic_load(&rounds));
}

static void run(void *(*does)(void *))
{
    pthread_t threads[THREADS];
    for (int i = 0; i < THREADS; i++)
        pthread_create(&threads[i], NULL, does, NULL);
    for (int i = 0; i < THREADS; i++)
        pthread_join(threads[i], NULL);
    printf("count %d\n", atomic_load(&count));
}

int main(void)
{
    sem_init(&asked, 0, 0);
    sem_init(&answered, 0, 0);
    adds(NULL);
    printf("alone %d\n", atomic_load(&count));
    run(adds);
    ask();
    run(ends);
    run(ends);
    return 0;
}
