/* Making, joining and ending threads. */
#include <stdlib.h>
#include <string.h>
#include <sys/single_threaded.h>
#include "monitor.h"

/* The end of the first thread's stack. */
#define FIRST_STACK_TOP UINT32_C(0x80000000)

/* The first thread's thread-local block. */
extern char __tls_first[];

void dthreads_thread_entry(void);
void dthreads_thread_park(struct dthreads_thread *, uint32_t, uint32_t *) __attribute__((noreturn));

static pthread_t name_of(const struct dthreads_thread *thread)
{
    return (pthread_t)thread->generation << 8 | (pthread_t)(thread - threads);
}

/* The living or ended thread of a name, or NULL. */
struct dthreads_thread *thread_of(pthread_t name)
{
    struct dthreads_thread *thread = &threads[name % DTHREADS_THREADS];
    if (thread->generation != name >> 8 || (thread->life != LIVING && thread->life != ENDED))
        return NULL;
    return thread;
}

static struct dthreads_thread *parked_thread(void)
{
    for (uint32_t i = 0; i < monitor.made; i++)
        if (threads[i].life == PARKED)
            return &threads[i];
    return NULL;
}

static void thread_fill(struct dthreads_thread *thread, void *(*start)(void *), void *argument)
{
    thread->generation++;
    thread->life = LIVING;
    thread->start = start;
    thread->argument = argument;
    thread->result = NULL;
    thread->joiner = NULL;
    thread->cancelled = false;
    thread->asleep = false;
    thread->asked = false;
    thread->pending = 0;
    thread->robust = NULL;
    thread->awaited = 0;
    thread->blocked = self() ? self()->blocked : 0;
    strcpy(thread->name, self() ? self()->name : "");
    thread->deadline = NEVER;
}

/* A new thread of the machine, whose number is its record's place. */
static bool machine_create(struct dthreads_thread *thread)
{
    uint32_t number;
    monitor_hold();
    return dthreads_call(DTHREADS_CREATE, (uint32_t)(uintptr_t)dthreads_thread_entry, (uint32_t)(uintptr_t)thread,
                         thread->stack_top, &number) == DTHREADS_DONE;
}

static int thread_make(pthread_t *name, const pthread_attr_t *attributes, void *(*start)(void *), void *argument)
{
    struct dthreads_thread *thread = parked_thread();
    bool is_new = !thread;
    if (is_new && monitor.made + monitor.others >= DTHREADS_THREADS)
        return EAGAIN;
    if (is_new)
        thread = &threads[monitor.made];
    if (!stack_attach(thread, attributes))
        return EAGAIN;
    thread_fill(thread, start, argument);
    thread->detached = attributes->detach_state == PTHREAD_CREATE_DETACHED;
    *name = name_of(thread);
    thread->created = ++monitor.created;
    thread->delay = vary_delay();
    dthreads_hint_release(moment_of(thread, START));
    monitor_hold();
    __libc_single_threaded = 0;
    monitor.living++;
    if (is_new) {
        monitor.made++;
        monitor.awake++;
        machine_create(thread);
    } else {
        monitor_rouse(thread);
    }
    return 0;
}

int pthread_create(pthread_t *name, const pthread_attr_t *attributes, void *(*start)(void *), void *argument)
{
    pthread_attr_t ordinary;
    if (!attributes) {
        pthread_attr_init(&ordinary);
        attributes = &ordinary;
    }
    output_flush();
    monitor_enter();
    int code = thread_make(name, attributes, start, argument);
    monitor_finish();
    return code;
}

/* Whether as many threads were created after this one as may begin together with it. */
static bool is_batch_full(const struct dthreads_thread *thread)
{
    return (monitor.created - 1) / BATCH != (thread->created - 1) / BATCH;
}

/* Waits until a phase has passed in which no thread was created. A phase lasts until all its threads have called, so threads
 * that are created one after the other would run one after the other if each began at once. */
static void begin_together(const struct dthreads_thread *thread)
{
    uint32_t seen;
    do {
        seen = monitor.created;
        dthreads_sync();
    } while (monitor.created != seen && !is_batch_full(thread));
}

/* Lets others have turns before this thread begins. Each of its own is an operation: the clock must not run for it. */
static void let_others_go(const struct dthreads_thread *thread)
{
    if (thread->delay == TOGETHER) {
        begin_together(thread);
        return;
    }
    for (uint32_t i = thread->delay; i > 0; i--) {
        monitor_enter();
        monitor_leave();
    }
}

/* What start.S and thread_leave entered is left when the start routine begins. */
void dthreads_thread_run(struct dthreads_thread *thread)
{
    tls_fill(thread->block);
    own.thread = thread;
    thread->own = &own;
    let_others_go(thread);
    hint_word(HINT_BEGIN, thread->created);
    dthreads_hint_acquire(moment_of(thread, START));
    moment_forget(thread, START);
    hint_leave();
    void *(*start)(void *) = thread->start;
    thread_leave((const void *)(uintptr_t)start, start(thread->argument));
}

static void run_cleanup(void)
{
    while (own.cleanup) {
        struct dthreads_cleanup *cleanup = own.cleanup;
        own.cleanup = cleanup->outer;
        cleanup->routine(cleanup->argument);
    }
}

/* The thread's record after its end: a detached one can be used again at once. */
static void retire(struct dthreads_thread *thread)
{
    stack_give(thread);
    if (thread->detached)
        moment_forget(thread, END);
    thread->life = !thread->detached ? ENDED : thread->ended_with > 0 ? LOST : PARKED;
    if (thread->joiner)
        monitor_wake(thread->joiner, WOKEN);
    thread->woken = 0;
    thread->deadline = NEVER;
    thread->condition = (uint8_t)((uint32_t)(thread - threads) % OWN_CONDITIONS);
}

/* Tells of the locks that the thread ends with. */
static void tell_locks(const void *caller)
{
    if (caller)
        hint_caller(caller);
    for (uint32_t i = 0; i < KEPT_LOCKS; i++)
        if (own.locks[i])
            hint_object(HINT_END_WITH_LOCK, own.locks[i]);
}

void thread_leave(const void *caller, void *value)
{
    struct dthreads_thread *thread = self();
    own.ending = true;
    run_cleanup();
    keys_destroy_values();
    if (readings_drop)
        readings_drop(caller);
    monitor_enter();
    if (monitor.living == 1) {
        /* (what exit calls is the program's) */
        hint_leave();
        exit(0);
    }
    dthreads_hint_release(moment_of(thread, END));
    moment_forget(thread, SIGNALLED);
    streams_give();

    heap_flush();
    if (robust_leave)
        robust_leave(thread);
    thread->ended_with = own.held;
    if (own.held > 0)
        tell_locks(caller);
    monitor_hold();
    thread->result = value;
    monitor.living--;
    retire(thread);
    monitor_one_less();
    dthreads_thread_park(thread, thread->condition, &monitor.waiting[thread->condition]);
}

void pthread_exit(void *value)
{
    thread_leave(CALL_PLACE, value);
}

/* What a joined thread leaves; its record can be used again. */
static void reap(struct dthreads_thread *thread, void **value)
{
    if (value)
        *value = thread->result;
    thread->life = thread->ended_with > 0 ? LOST : PARKED;
}

static int join(pthread_t name, void **value, uint64_t deadline)
{
    struct dthreads_thread *thread = thread_of(name);
    if (!thread)
        return ESRCH;
    if (thread == self())
        return EDEADLK;
    if (thread->detached || thread->joiner)
        return EINVAL;
    if (cancel_is_due() && deadline > 0)
        return EINTR;
    enum wake wake = WOKEN;
    while (thread->life != ENDED && wake == WOKEN) {
        thread->joiner = self();
        wake = monitor_sleep_lightly(NULL, deadline, true);
        thread->joiner = NULL;
    }
    if (wake == CANCELLED)
        return EINTR;
    if (wake == INTERRUPTED && thread->life != ENDED)
        return EAGAIN;
    if (thread->life != ENDED)
        return ETIMEDOUT;
    dthreads_hint_acquire(moment_of(thread, END));
    moment_forget(thread, END);
    reap(thread, value);
    return 0;
}

static int join_until(pthread_t name, void **value, uint64_t deadline)
{
    monitor_enter();
    int code = join(name, value, deadline);
    while (code == EAGAIN) {
        monitor_finish();
        monitor_enter();
        code = join(name, value, deadline);
    }
    monitor_finish();
    cancel_here(code == EINTR ? CANCELLED : WOKEN);
    return code;
}

int pthread_join(pthread_t name, void **value)
{
    hint_called();
    return join_until(name, value, NEVER);
}

int pthread_tryjoin_np(pthread_t name, void **value)
{
    hint_called();
    int code = join_until(name, value, 0);
    return code == ETIMEDOUT ? EBUSY : code;
}

static int join_by_clock(pthread_t name, void **value, clockid_t clock, const struct timespec *time)
{
    uint64_t deadline = NEVER;
    if (time && !deadline_of(clock, time, &deadline))
        return EINVAL;
    return join_until(name, value, deadline);
}

int pthread_timedjoin_np(pthread_t name, void **value, const struct timespec *time)
{
    hint_called();
    return join_by_clock(name, value, CLOCK_REALTIME, time);
}

int pthread_clockjoin_np(pthread_t name, void **value, clockid_t clock, const struct timespec *time)
{
    hint_called();
    return join_by_clock(name, value, clock, time);
}

int pthread_detach(pthread_t name)
{
    monitor_enter();
    struct dthreads_thread *thread = thread_of(name);
    int code = !thread ? ESRCH : thread->detached ? EINVAL : 0;
    /* A thread that another one waits for is the other's. */
    if (code == 0 && !thread->joiner) {
        thread->detached = true;
        if (thread->life == ENDED)
            reap(thread, NULL);
    }
    monitor_leave();
    return code;
}

pthread_t pthread_self(void)
{
    return name_of(self());
}

int pthread_equal(pthread_t one, pthread_t other)
{
    return one == other;
}

int pthread_getattr_np(pthread_t name, pthread_attr_t *attributes)
{
    pthread_attr_init(attributes);
    monitor_enter();
    struct dthreads_thread *thread = thread_of(name);
    if (thread) {
        attributes->stack_size = thread->stack_size;
        attributes->stack_address = thread->stack_base;
        attributes->guard_size = thread->stack ? DTHREADS_PAGE : 0;
        attributes->detach_state = thread->detached ? PTHREAD_CREATE_DETACHED : PTHREAD_CREATE_JOINABLE;
    }
    monitor_leave();
    return thread ? 0 : ESRCH;
}

int pthread_setname_np(pthread_t name, const char *text)
{
    if (strlen(text) >= NAME_SIZE)
        return ERANGE;
    monitor_enter();
    struct dthreads_thread *thread = thread_of(name);
    if (thread)
        strcpy(thread->name, text);
    monitor_leave();
    return thread ? 0 : ESRCH;
}

int pthread_getname_np(pthread_t name, char *text, size_t size)
{
    if (size < NAME_SIZE)
        return ERANGE;
    monitor_enter();
    struct dthreads_thread *thread = thread_of(name);
    if (thread)
        strcpy(text, thread->name);
    monitor_leave();
    return thread ? 0 : ESRCH;
}

/* The first thread's record; the machine made it with a stack of its own. */
void thread_begin(void)
{
    struct dthreads_thread *thread = &threads[0];
    tls_fill(__tls_first);
    monitor.earliest = NEVER;
    monitor.alarm = NEVER;
    monitor.living = 1;
    monitor.awake = 1;
    monitor.made = 1;
    thread_fill(thread, NULL, NULL);
    strcpy(thread->name, "program");
    thread->stack_size = DTHREADS_FIRST_STACK;
    thread->stack_base = (char *)(uintptr_t)(FIRST_STACK_TOP - DTHREADS_FIRST_STACK);
    own.thread = thread;
    thread->own = &own;
}

/* A symbol whose value is a number. */
#define NUMBER(symbol, number) __asm__(".globl " #symbol "\n.set " #symbol ", %0" ::"i"(number))

/* By these symbols a debugger without types finds what it shows of a record. The linker drops the function, which nobody calls. */
void dthreads_thread_numbers(void)
{
    NUMBER(dthreads_thread_size, sizeof(struct dthreads_thread));
    NUMBER(dthreads_thread_created, offsetof(struct dthreads_thread, created));
    NUMBER(dthreads_thread_name, offsetof(struct dthreads_thread, name));
}
