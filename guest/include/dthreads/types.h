/* The types of pthread.h, which sys/types.h declares, too. */
#ifndef DTHREADS_TYPES_H
#define DTHREADS_TYPES_H

#include <stddef.h>

struct dthreads_thread;

/* Those who wait for an object, in the order in which they are woken. */
struct dthreads_queue {
    struct dthreads_thread *first;
    struct dthreads_thread *last;
};

typedef unsigned long pthread_t;
typedef unsigned pthread_key_t;

typedef struct {
    size_t stack_size;
    void *stack_address;
    size_t guard_size;
    int detach_state;
} pthread_attr_t;

typedef struct dthreads_mutex {
    int kind;
    struct dthreads_thread *owner;
    unsigned count;
    struct dthreads_queue waiters;
    /* Of a robust one: whether its owner has ended with it, and the owner's next robust one. */
    int robust;
    struct dthreads_mutex *next;
} pthread_mutex_t;

typedef struct {
    int kind;
    int robust;
} pthread_mutexattr_t;

typedef struct {
    clockid_t clock;
    struct dthreads_queue waiters;
} pthread_cond_t;

typedef struct {
    clockid_t clock;
} pthread_condattr_t;

typedef struct {
    unsigned count;
    unsigned arrived;
    unsigned crowd;
    struct dthreads_queue waiters;
} pthread_barrier_t;

typedef struct {
    int unused;
} pthread_barrierattr_t;

typedef struct {
    struct dthreads_thread *writer;
    unsigned readers;
    struct dthreads_queue waiters;
    int kind;
} pthread_rwlock_t;

typedef struct {
    int kind;
} pthread_rwlockattr_t;

typedef struct {
    struct dthreads_thread *owner;
    struct dthreads_queue waiters;
} pthread_spinlock_t;

typedef struct {
    int state;
    struct dthreads_queue waiters;
} pthread_once_t;

#endif
