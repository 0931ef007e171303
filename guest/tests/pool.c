/* A pool of threads with a queue of jobs. */
#include <pthread.h>
#include <stdio.h>
#include <stdlib.h>

struct job {
    struct job *next;
    void (*routine)(void *);
    void *argument;
};

struct pool {
    pthread_mutex_t mutex;
    pthread_cond_t is_work, is_idle;
    struct job *first, **last;
    int pending, stops, count;
    pthread_t threads[8];
};

static struct job *next_job(struct pool *pool)
{
    pthread_mutex_lock(&pool->mutex);
    while (!pool->first && !pool->stops)
        pthread_cond_wait(&pool->is_work, &pool->mutex);
    struct job *job = pool->first;
    if (job) {
        pool->first = job->next;
        if (!pool->first)
            pool->last = &pool->first;
    }
    pthread_mutex_unlock(&pool->mutex);
    return job;
}

static void finish(struct pool *pool)
{
    pthread_mutex_lock(&pool->mutex);
    if (--pool->pending == 0)
        pthread_cond_broadcast(&pool->is_idle);
    pthread_mutex_unlock(&pool->mutex);
}

static void *work(void *argument)
{
    struct pool *pool = argument;
    for (struct job *job = next_job(pool); job; job = next_job(pool)) {
        job->routine(job->argument);
        free(job);
        finish(pool);
    }
    return NULL;
}

static struct pool *pool_make(int count)
{
    struct pool *pool = calloc(1, sizeof *pool);
    pthread_mutex_init(&pool->mutex, NULL);
    pthread_cond_init(&pool->is_work, NULL);
    pthread_cond_init(&pool->is_idle, NULL);
    pool->last = &pool->first;
    pool->count = count;
    for (int i = 0; i < count; i++)
        pthread_create(&pool->threads[i], NULL, work, pool);
    return pool;
}

static void pool_add(struct pool *pool, void (*routine)(void *), void *argument)
{
    struct job *job = malloc(sizeof *job);
    *job = (struct job){NULL, routine, argument};
    pthread_mutex_lock(&pool->mutex);
    *pool->last = job;
    pool->last = &job->next;
    pool->pending++;
    pthread_cond_signal(&pool->is_work);
    pthread_mutex_unlock(&pool->mutex);
}

static void pool_wait(struct pool *pool)
{
    pthread_mutex_lock(&pool->mutex);
    while (pool->pending)
        pthread_cond_wait(&pool->is_idle, &pool->mutex);
    pthread_mutex_unlock(&pool->mutex);
}

static void pool_end(struct pool *pool)
{
    pthread_mutex_lock(&pool->mutex);
    pool->stops = 1;
    pthread_cond_broadcast(&pool->is_work);
    pthread_mutex_unlock(&pool->mutex);
    for (int i = 0; i < pool->count; i++)
        pthread_join(pool->threads[i], NULL);
    free(pool);
}

static int results[100];

/* How many steps the number takes to reach 1. */
static void collatz(void *argument)
{
    int *place = argument;
    unsigned number = (unsigned)(place - results) + 1;
    while (number != 1) {
        number = number % 2 ? 3 * number + 1 : number / 2;
        ++*place;
    }
}

int main(void)
{
    struct pool *pool = pool_make(4);
    int longest = 0;
    for (int i = 0; i < 100; i++)
        pool_add(pool, collatz, &results[i]);
    pool_wait(pool);
    pool_end(pool);
    for (int i = 0; i < 100; i++)
        if (results[i] > results[longest])
            longest = i;
    printf("%d takes %d steps\n", longest + 1, results[longest]);
    return 0;
}
