/* What the programs of this folder share. With RIGHT defined each is its right twin. */
#include <pthread.h>
#include <sched.h>
#include <semaphore.h>
#include <stdatomic.h>
#include <stdbool.h>
#include <stdio.h>
#include <stdlib.h>
#include <string.h>
#include <time.h>
#include <unistd.h>

enum { MOST = 16 };

static pthread_t threads[MOST];
static int begun;

static inline void lock(pthread_mutex_t *mutex)
{
    pthread_mutex_lock(mutex);
}

static inline void unlock(pthread_mutex_t *mutex)
{
    pthread_mutex_unlock(mutex);
}

/* Begins a thread, whose argument is a number. */
static inline void begin(void *(*routine)(void *), long number)
{
    pthread_create(&threads[begun++], NULL, routine, (void *)number);
}

static inline void join(void)
{
    for (int i = 0; i < begun; i++)
        pthread_join(threads[i], NULL);
}

/* Ends the run with status 1 unless it is as it must be. */
static inline void must(bool is_so, const char *text)
{
    if (is_so)
        return;
    puts(text);
    exit(1);
}
