// The programs by which tools/dt measure quantum tells how much four threads do side by side: KIND chooses one.
#include <pthread.h>
#include <stdio.h>

enum { queue = 1, pipeline, loop, THREADS = 4, JOBS = 64, ROOM = 8 };

static pthread_mutex_t mutex = PTHREAD_MUTEX_INITIALIZER;
static pthread_cond_t changed = PTHREAD_COND_INITIALIZER;
static pthread_barrier_t barrier;
static int next_job, stage_of[JOBS];
static unsigned results[JOBS];

/* Jobs take from 200,000 to 1,100,000 instructions. */
static unsigned work(int job)
{
    unsigned value = (unsigned)job;
    for (int i = 0; i < 50000 + job * 37 % 10 * 25000; i++)
        value = value * 1664525 + 1013904223;
    return value;
}

/* A pool with a queue of jobs. */
static void draw_jobs(void)
{
    for (;;) {
        pthread_mutex_lock(&mutex);
        int job = next_job < JOBS ? next_job++ : -1;
        pthread_mutex_unlock(&mutex);
        if (job < 0)
            return;
        unsigned result = work(job);
        pthread_mutex_lock(&mutex);
        results[job] = result;
        pthread_mutex_unlock(&mutex);
    }
}

/* Each thread is a stage through which all jobs go. */
static void pass_jobs(int stage)
{
    for (int job = 0; job < JOBS; job++) {
        pthread_mutex_lock(&mutex);
        while (stage_of[job] != stage)
            pthread_cond_wait(&changed, &mutex);
        pthread_mutex_unlock(&mutex);
        unsigned result = work(job + stage);
        pthread_mutex_lock(&mutex);
        results[job] += result;
        stage_of[job]++;
        pthread_cond_broadcast(&changed);
        pthread_mutex_unlock(&mutex);
    }
}

/* Equal parts of a loop, between barriers. */
static void share_loop(int number)
{
    for (int round = 0; round < 16; round++) {
        results[number] += work(round) + work(round + 5);
        pthread_barrier_wait(&barrier);
    }
}

static void *run(void *number)
{
    if (KIND == queue)
        draw_jobs();
    else if (KIND == pipeline)
        pass_jobs((int)(long)number);
    else
        share_loop((int)(long)number);
    return NULL;
}

int main(void)
{
    pthread_t made[THREADS];
    unsigned sum = 0;
    pthread_barrier_init(&barrier, NULL, THREADS);
    for (long i = 0; i < THREADS; i++)
        pthread_create(&made[i], NULL, run, (void *)i);
    for (int i = 0; i < THREADS; i++)
        pthread_join(made[i], NULL);
    for (int i = 0; i < JOBS; i++)
        sum += results[i];
    printf("%u\n", sum);
    return 0;
}
