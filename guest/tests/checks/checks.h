/* What the programs of this folder share. Each has a fault of one kind; -DRIGHT compiles its twin without the fault. */
#ifndef CHECKS_H
#define CHECKS_H

#include <pthread.h>
#include <sched.h>
#include <semaphore.h>
#include <stdatomic.h>
#include <stdio.h>
#include <stdlib.h>
#include <string.h>
#include <unistd.h>

#ifdef RIGHT
#define IF_RIGHT(...) __VA_ARGS__
#define IF_WRONG(...)
#else
#define IF_RIGHT(...)
#define IF_WRONG(...) __VA_ARGS__
#endif

#define MUTEX(name) pthread_mutex_t name = PTHREAD_MUTEX_INITIALIZER
#define LOCK(mutex) pthread_mutex_lock(&mutex)
#define UNLOCK(mutex) pthread_mutex_unlock(&mutex)

typedef void *routine(void *);

static inline pthread_t begun(routine *start, void *argument)
{
    pthread_t thread;
    pthread_create(&thread, NULL, start, argument);
    return thread;
}

static inline void *ended(pthread_t thread)
{
    void *result;
    pthread_join(thread, &result);
    return result;
}

/* Runs a thread to its end. */
static inline void *done(routine *start, void *argument)
{
    return ended(begun(start, argument));
}

/* Runs two threads beside each other. */
static inline void both(routine *one, routine *other)
{
    pthread_t first = begun(one, NULL), second = begun(other, NULL);
    ended(first);
    ended(second);
}

/* Lets the other threads go on: this orders nothing. */
static inline void let_pass(void)
{
    usleep(10000);
}

#endif
