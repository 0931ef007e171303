/* The monitor: one mutex of the machine guards all of the library's data.
 *
 * Owners and queues are data. A thread that sleeps waits for a condition of the machine, with a flag of its own. A thread
 * stays in the monitor while it holds a mutex of pthread.h, and leaves it when it sleeps or frees the last one: an
 * uncontended lock with its unlock is two turns. A run with one living thread needs no turns for any of this.
 */
#ifndef MONITOR_H
#define MONITOR_H

#include <stddef.h>
#include <stdint.h>
#include <stdbool.h>
#include <pthread.h>
#include <dthreads.h>
#include "hints.h"
#include "offsets.h"
#include "vary.h"
#include "../names.h"

enum {
    /* Conditions that sleepers share by their number. */
    OWN_CONDITIONS = 56,
    /* Conditions for those that are all woken at once, by the object that they wait for. */
    CROWD_CONDITIONS = 8,
    /* Operations in the monitor after which a thread lets others have their turns. */
    LONGEST_STAY = 512,
    /* A sleeper that lets turns pass in place of its time lets fewer than 2 to a power below this one pass. */
    DOZES = 7,
    /* By choice, one in so many waits for a condition ends without a signal, after so many turns at most. */
    SPURIOUS_WAITS = 16,
    SPURIOUS_TURNS = 4,
    /* Threads that begin together at most. */
    BATCH = 64,
    /* Bytes of a thread's name, with the zero at its end. */
    NAME_SIZE = 16,
    /* Locks of which a thread remembers that it holds them. */
    KEPT_LOCKS = 16
};

#define NEVER UINT64_MAX
/* Of nanoseconds. */
#define SECOND UINT64_C(1000000000)

/* Why a sleep ended. */
enum wake {
    WOKEN,
    TIMED_OUT,
    CANCELLED,
    /* By a signal. */
    INTERRUPTED
};

/* A robust mutex: as it was made, its owner has ended with it, and nobody has made it consistent since. */
enum robust {
    STALLED,
    ROBUST,
    OWNER_DEAD,
    NOT_RECOVERABLE
};

enum life {
    UNUSED,
    LIVING,
    /* It has ended and nobody has joined it. */
    ENDED,
    /* It waits for a start routine. */
    PARKED,
    /* It ended with a mutex: its record stays the owner. */
    LOST
};

/* What others see of a thread. Only who is in the monitor may touch it. */
struct dthreads_thread {
    uint32_t stack_top;
    char *block;
    uint32_t woken;
    struct dthreads_thread *next;
    struct dthreads_thread *previous;
    struct dthreads_queue *queue;
    uint64_t deadline;
    uint32_t generation;
    uint8_t life;
    uint8_t condition;
    uint8_t wake;
    bool asleep;
    bool may_be_cancelled;
    bool may_be_interrupted;
    bool cancelled;
    bool detached;
    bool is_writer;
    /* Who woke it gave it what it waited for: else it tries again. */
    bool handed;
    /* Another thread wants a stream that it keeps. */
    bool asked;
    struct dthreads_thread *joiner;
    /* What it keeps for itself; another thread may touch it while this one waits. */
    struct own *own;
    /* Mutexes that it held at its end. */
    uint32_t ended_with;
    void *(*start)(void *);
    void *argument;
    void *result;
    /* Signals, a bit each: that came, that are to wait, and for which the thread waits. */
    uint64_t pending;
    uint64_t blocked;
    uint64_t awaited;
    /* The robust mutexes that it holds. */
    pthread_mutex_t *robust;
    /* With which mutex it waits for a condition. */
    const pthread_mutex_t *waits_with;
    /* How many threads had been created with it, and what vary_delay said. */
    uint32_t created;
    uint32_t delay;
    struct stack *stack;
    /* The stack as its attributes have it: its lowest address and its bytes. */
    char *stack_base;
    uint32_t stack_size;
    char name[NAME_SIZE];
};

/* What a thread keeps for itself. */
struct own {
    struct dthreads_thread *thread;
    /* Mutexes, spin locks and write locks held: the thread stays in the monitor while it has any. */
    uint32_t held;
    /* Calls of the library within each other. */
    uint32_t depth;
    uint32_t operations;
    bool inside;
    /* Whether the machine's mutex is held: a lone thread needs none. */
    bool locked;
    /* It stays after a fence. */
    bool by_fence;
    /* It is between two fences, of which the first has entered the monitor. */
    bool in_access;
    bool cancel_disabled;
    /* Of the asynchronous type. */
    bool cancels_at_once;
    bool ending;
    struct dthreads_cleanup *cleanup;
    /* The locks that it holds, at the place of how many it held before, and NULL elsewhere. */
    const void *locks[KEPT_LOCKS];
};

struct monitor {
    uint64_t clock;
    /* How often an operation moved it. */
    uint64_t moves;
    /* The sleeper that moves the clock while others compute. */
    struct dthreads_thread *watcher;
    /* No sleeper has an earlier deadline. */
    uint64_t earliest;
    uint32_t living;
    uint32_t awake;
    /* Threads of the machine so far. */
    uint32_t made;
    /* Calls of pthread_create that made a thread. */
    uint32_t created;
    /* There are threads that the library didn't make. */
    uint32_t others;
    /* Who waits for each condition of the machine. */
    uint32_t waiting[OWN_CONDITIONS + CROWD_CONDITIONS];
    struct stack *stacks;
    uint32_t crowds;
    /* Signals that no thread takes yet, and the alarm's time with its interval. */
    uint64_t signals;
    uint64_t alarm;
    uint64_t alarm_interval;
};

extern struct monitor monitor;
extern struct dthreads_thread threads[DTHREADS_THREADS];
extern __thread struct own own;

static inline struct dthreads_thread *self(void)
{
    return own.thread;
}

/* What hints name beside the program's objects: a thread's start, its end, and the signals of conditions that it gets. These are no
 * addresses, and others for each pthread_create. */
enum moment {
    START,
    END,
    SIGNALLED
};

static inline const void *moment_of(const struct dthreads_thread *thread, enum moment moment)
{
    return (const void *)(uintptr_t)(UINT32_C(0x80000000) | thread->created << 2 | moment);
}

/* Nobody acquires it any more. */
static inline void moment_forget(const struct dthreads_thread *thread, enum moment moment)
{
    dthreads_hint_fresh(moment_of(thread, moment), 1);
}

/* This thread holds one more lock, or NULL for one that isn't the program's. */
static inline void lock_hold(const void *lock)
{
    own.locks[own.held++ % KEPT_LOCKS] = lock;
}

/* Takes a lock that isn't the last one out of those that a thread holds. */
void locks_mend(struct own *holder, const void *lock, uint32_t last);
/* A thread holds a lock no longer. */
static inline void lock_drop(struct own *holder, const void *lock)
{
    uint32_t last = --holder->held % KEPT_LOCKS;
    if (holder->locks[last] != lock)
        locks_mend(holder, lock, last);
    holder->locks[last] = NULL;
}

/* True if no other thread can run. */
static inline bool alone(void)
{
    return monitor.living == 1 && !monitor.others;
}

/* Between these a thread sees and changes what all share; calls may nest. */
void monitor_enter(void);
void monitor_leave(void);
/* Leaves it at the end of a call of the program: signals that came are delivered. */
void monitor_finish(void);
/* Makes sure that the machine's mutex is held, for a thread in the monitor that is no longer alone, or sleeps. */
void monitor_hold(void);
/* Lets others have their turns, also if mutexes are held. */
void monitor_breathe(void);

/* Sleeps in a queue, or in none, until another thread wakes this one or the clock reaches the deadline. */
enum wake monitor_sleep(struct dthreads_queue *queue, uint64_t deadline, bool may_be_cancelled);
/* As the first, but a signal ends the sleep, too. */
enum wake monitor_sleep_lightly(struct dthreads_queue *queue, uint64_t deadline, bool may_be_cancelled);
/* As the first, for waits that no signal ends: handlers run meanwhile, outside of the monitor and of the queue, and the wait is INTERRUPTED
 * after them; the caller looks anew. A thread of the asynchronous type may be cancelled, and doesn't come back then. */
enum wake monitor_sleep_on(struct dthreads_queue *queue, uint64_t deadline);
/* The same, for a queue whose sleepers are all woken at once, and without cancellation: `crowd` is its condition's number. */
enum wake monitor_sleep_in_crowd(struct dthreads_queue *queue, uint32_t crowd);
void monitor_wake(struct dthreads_thread *thread, enum wake wake);
/* Wakes the first of a queue, or nobody. */
static inline struct dthreads_thread *monitor_wake_first(struct dthreads_queue *queue)
{
    struct dthreads_thread *thread = queue->first;
    if (thread)
        monitor_wake(thread, WOKEN);
    return thread;
}

/* By choice another one of a queue than the first. The queue isn't empty, and the run has a number. */
struct dthreads_thread *monitor_pick(const struct dthreads_queue *queue);
/* Who of a queue that isn't empty comes next: the first or, by choice, any other one. */
static inline struct dthreads_thread *monitor_next(const struct dthreads_queue *queue)
{
    return varies() ? monitor_pick(queue) : queue->first;
}

/* Wakes who comes next. Returns it, or NULL if nobody waits. */
static inline struct dthreads_thread *monitor_wake_next(struct dthreads_queue *queue)
{
    struct dthreads_thread *thread = queue->first;
    if (thread) {
        thread = monitor_next(queue);
        monitor_wake(thread, WOKEN);
    }
    return thread;
}

/* Wakes who comes next of those that wait for an object, and gives it the object. Returns who has it now: NULL if nobody waits or, by
 * choice, if the one that was woken has to try again. */
static inline struct dthreads_thread *monitor_hand(struct dthreads_queue *queue)
{
    struct dthreads_thread *thread = monitor_wake_next(queue);
    if (!thread)
        return NULL;
    thread->handed = !vary_one_in(2);
    return thread->handed ? thread : NULL;
}

void monitor_wake_all(struct dthreads_queue *queue);
/* One thread sleeps or has ended: if nobody is awake, the clock jumps to the next deadline. */
void monitor_one_less(void);
/* A thread that has ended gets something to run. */
void monitor_rouse(struct dthreads_thread *thread);

/* The clock of the day at the run's start, in seconds since 1970. */
extern const int64_t dthreads_epoch;
/* The clock, which the reading moves on. */
uint64_t read_clock(void);
/* Deadlines as the clock counts them, from times of a clock of time.h; false for times that are none. */
bool deadline_of(clockid_t clock, const struct timespec *time, uint64_t *deadline);

/* Ends this thread if it was asked to. */
void cancel_here(enum wake wake);
/* Whether it was asked to, as far as the thread knows: it learns of it by its calls. */
bool cancel_is_due(void);
/* A call that takes no turn to find out: within another call of the library it is none. */
void cancel_point(void);

/* Of the functions of signal.h, which are linked by need. Runs the handlers of what came; false if one of them doesn't let the
 * call that it interrupted go on. */
__attribute__((weak)) bool signals_deliver(void);
/* The alarm's time has come. */
__attribute__((weak)) void alarm_ring(void);

/* A place where signals may be delivered. */
static inline void signal_point(void)
{
    if (signals_deliver && own.thread && own.depth == 0 && own.thread->pending & ~own.thread->blocked)
        signals_deliver();
}

void mutex_acquire(pthread_mutex_t *mutex, enum hint hint);
void mutex_release(pthread_mutex_t *mutex);
/* Whether another thread has it, so that this one has to wait. */
static inline bool mutex_is_kept(const pthread_mutex_t *mutex)
{
    return mutex->owner && mutex->owner != self() && mutex->robust != NOT_RECOVERABLE;
}

/* What pthread.h has, for other functions that a program calls: these say the place in the program themselves. */
int mutex_lock(pthread_mutex_t *mutex);
int mutex_lock_by_clock(pthread_mutex_t *mutex, clockid_t clock, const struct timespec *time);
int mutex_try(pthread_mutex_t *mutex);
int mutex_unlock(pthread_mutex_t *mutex);
int condition_wait(pthread_cond_t *condition, pthread_mutex_t *mutex);
int condition_wait_by_clock(pthread_cond_t *condition, pthread_mutex_t *mutex, clockid_t clock, const struct timespec *time);

/* What the new owner of a mutex learns of the one before: 0, or EOWNERDEAD. */
int mutex_code(const pthread_mutex_t *mutex);
/* Frees the robust mutexes of a thread that ends. */
__attribute__((weak)) void robust_leave(struct dthreads_thread *thread);
/* Keeps a robust mutex with its owner's, and takes it from there. */
__attribute__((weak)) void robust_hold(pthread_mutex_t *mutex);
__attribute__((weak)) void robust_drop(pthread_mutex_t *mutex);

/* As realloc, within another call of the library: the place in the program stays that of the other. */
void *heap_resize(void *address, size_t size);
/* Gives this thread's cached blocks back. */
void heap_flush(void);
/* Pages for a stack and the like, or NULL; they are never given back. */
void *heap_pages(uint32_t pages);
/* Pages given so far, and those that are free or can still be given, in the monitor. */
uint32_t heap_given(void);
uint32_t heap_left(void);
/* Pages that can be given back, or NULL; false for a range that isn't whole of such pages. */
void *heap_map(uint32_t pages);
bool heap_unmap(void *address, uint32_t pages);

void keys_destroy_values(void);
/* What a thread that ends, by a call from this place, remembers of its read locks. */
__attribute__((weak)) void readings_drop(const void *caller);
void output_flush(void);
/* Gives away the streams that this thread keeps. */
void streams_give(void);
void thread_begin(void);
/* Ends this thread: `caller` is the place in the program that says so, or NULL for the one of the last call of the library. */
void thread_leave(const void *caller, void *value) __attribute__((noreturn));
/* The living or ended thread of a name, or NULL. */
struct dthreads_thread *thread_of(pthread_t name);

/* Where a thread's thread-local block lies below `top`; its stack begins below it. */
char *block_below(char *top);
void tls_fill(char *block);
/* Gives a thread the stack that its attributes name; false if out of memory. */
bool stack_attach(struct dthreads_thread *thread, const pthread_attr_t *attributes);
void stack_give(struct dthreads_thread *thread);

#endif
