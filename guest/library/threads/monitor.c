/* The monitor's data, the list of those that wait to go on, and leaving it. */
#include <sys/single_threaded.h>
#include "monitor.h"
#include "plain_access.h"

struct monitor monitor;
char __libc_single_threaded = 1;
struct dthreads_thread threads[DTHREADS_THREADS];
__thread struct own own;

_Static_assert(offsetof(struct dthreads_thread, stack_top) == THREAD_STACK, "start.S");
_Static_assert(offsetof(struct dthreads_thread, block) == THREAD_BLOCK, "start.S");
_Static_assert(offsetof(struct dthreads_thread, woken) == THREAD_WOKEN, "start.S");

static void leave_machine(void)
{
    own.inside = false;
    own.operations = 0;
    if (own.locked) {
        own.locked = false;
        dthreads_unlock(MONITOR_MUTEX);
    }
}

static void enter_machine(void)
{
    if (!alone()) {
        dthreads_lock(MONITOR_MUTEX);
        own.locked = true;
    }
    own.inside = true;
    if (self() && self()->asked)
        streams_give();
}

static uint64_t earliest_deadline(void)
{
    uint64_t earliest = NEVER;
    for (uint32_t i = 0; i < monitor.made; i++)
        if (threads[i].deadline < earliest)
            earliest = threads[i].deadline;
    return monitor.alarm < earliest ? monitor.alarm : earliest;
}

static void wake_due(void)
{
    for (uint32_t i = 0; i < monitor.made; i++)
        if (threads[i].deadline <= monitor.clock)
            monitor_wake(&threads[i], TIMED_OUT);
    if (monitor.alarm <= monitor.clock)
        alarm_ring();
    monitor.earliest = earliest_deadline();
}

/* Whether a time may come early by choice: those further away than an hour stand for ever in many programs. */
static bool is_near(uint64_t time)
{
    return time > monitor.clock && time - monitor.clock <= 3600 * SECOND;
}

/* By choice, the time of the first sleeper comes while others run. An alarm is left alone: many are watchdogs. */
static __attribute__((noinline, cold)) void hasten(void)
{
    uint64_t earliest = NEVER;
    for (uint32_t i = 0; i < monitor.made; i++)
        if (threads[i].deadline < earliest)
            earliest = threads[i].deadline;
    if (is_near(earliest) && vary_one_in(2))
        monitor.clock = earliest;
    if (monitor.clock >= monitor.earliest)
        wake_due();
}

static void move_clock(void)
{
    monitor.moves++;
    monitor.clock += DTHREADS_OPERATION_TIME;
    if (varies())
        hasten();
    else if (monitor.clock >= monitor.earliest)
        wake_due();
}

/* A thread that is in the monitor, as it holds a mutex or came by a fence. */
static void stay(void)
{
    own.by_fence = false;
    if (++own.operations >= LONGEST_STAY)
        monitor_breathe();
}

void monitor_enter(void)
{
    if (own.depth++ > 0)
        return;
    hint_enter();
    if (!own.inside)
        enter_machine();
    else
        stay();
    move_clock();
}

/* By choice, a thread leaves at each operation's end, also if it holds a mutex. */
static __attribute__((noinline, cold)) void leave_with_mutex(void)
{
    if (own.locked && vary_one_in(1))
        leave_machine();
    hint_leave();
}

/* Whether it may: with a mutex, of a run with a number. */
static inline bool may_leave_with_mutex(void)
{
    return own.held > 0 && varies();
}

/* Ends an operation. */
static inline void leave(void)
{
    if (own.held == 0)
        leave_machine();
    hint_leave();
}

void monitor_leave(void)
{
    if (--own.depth > 0)
        return;
    if (may_leave_with_mutex())
        leave_with_mutex();
    else
        leave();
}

static __attribute__((noinline)) void deliver_here(void)
{
    signal_point();
}

static __attribute__((noinline, cold)) void finish_with_mutex(void)
{
    leave_with_mutex();
    signal_point();
}

/* Its calls are the last things that it does, so it needs no frame. */
void monitor_finish(void)
{
    if (--own.depth == 0) {
        if (may_leave_with_mutex()) {
            finish_with_mutex();
            return;
        }
        leave();
    }
    if (signals_deliver)
        deliver_here();
}

void monitor_hold(void)
{
    if (!own.locked) {
        dthreads_lock(MONITOR_MUTEX);
        own.locked = true;
    }
}

void monitor_breathe(void)
{
    if (own.inside) {
        hint_enter();
        leave_machine();
        enter_machine();
        hint_leave();
    }
}

static void append(struct dthreads_queue *queue, struct dthreads_thread *thread)
{
    thread->queue = queue;
    thread->next = NULL;
    thread->previous = queue->last;
    if (queue->last)
        queue->last->next = thread;
    else
        queue->first = thread;
    queue->last = thread;
}

static void unlink(struct dthreads_thread *thread)
{
    struct dthreads_queue *queue = thread->queue;
    if (!queue)
        return;
    if (thread->previous)
        thread->previous->next = thread->next;
    else
        queue->first = thread->next;
    if (thread->next)
        thread->next->previous = thread->previous;
    else
        queue->last = thread->previous;
    thread->queue = NULL;
}

/* Marks a sleeper as woken, without the machine's call. */
static void mark(struct dthreads_thread *thread, enum wake wake)
{
    unlink(thread);
    thread->deadline = NEVER;
    thread->asleep = false;
    thread->wake = wake;
    thread->woken = 1;
    monitor.awake++;
}

/* Wakes who waits for a condition of the machine: each looks at its flag and waits again if it is not meant. */
static void ring(uint32_t condition)
{
    uint32_t count = monitor.waiting[condition];
    monitor.waiting[condition] = 0;
    if (count == 1)
        dthreads_signal(condition, NULL);
    else if (count > 1)
        dthreads_broadcast(condition, NULL);
}

void monitor_wake(struct dthreads_thread *thread, enum wake wake)
{
    mark(thread, wake);
    if (thread != self())
        ring(thread->condition);
}

static uint32_t length_of(const struct dthreads_queue *queue)
{
    uint32_t length = 0;
    for (const struct dthreads_thread *each = queue->first; each; each = each->next)
        length++;
    return length;
}

struct dthreads_thread *monitor_pick(const struct dthreads_queue *queue)
{
    struct dthreads_thread *thread = queue->first;
    uint32_t place = thread->next && vary_one_in(2) ? vary_below(length_of(queue)) : 0;
    while (place-- > 0)
        thread = thread->next;
    return thread;
}

void monitor_wake_all(struct dthreads_queue *queue)
{
    uint64_t conditions = 0;
    while (queue->first) {
        conditions |= UINT64_C(1) << queue->first->condition;
        mark(queue->first, WOKEN);
    }
    for (uint32_t i = 0; conditions; i++, conditions >>= 1)
        if (conditions & 1)
            ring(i);
}

void monitor_rouse(struct dthreads_thread *thread)
{
    thread->woken = 1;
    monitor.awake++;
    ring(thread->condition);
}

void monitor_one_less(void)
{
    monitor.awake--;
    while (monitor.awake == 0 && monitor.earliest != NEVER) {
        monitor.earliest = earliest_deadline();
        if (monitor.earliest == NEVER)
            return;
        monitor.clock = monitor.earliest;
        wake_due();
    }
}

/* The sleeper with the first deadline is the watcher while others are awake: they may compute, and move no clock. */
static bool is_watcher(const struct dthreads_thread *thread)
{
    return thread->deadline != NEVER && monitor.awake > 0 && thread->deadline <= monitor.earliest &&
           (!monitor.watcher || monitor.watcher == thread || monitor.watcher->deadline > thread->deadline);
}

/* Lets a phase pass, in which the others have their turns. If no operation moved the clock in it, the watcher does, by `step`, which
 * grows from phase to phase. */
static void watch(struct dthreads_thread *thread, uint64_t *step)
{
    uint64_t moves = monitor.moves;
    monitor.watcher = thread;
    dthreads_unlock(MONITOR_MUTEX);
    dthreads_lock(MONITOR_MUTEX);
    *step = monitor.moves != moves ? 0 : *step ? *step * 4 : DTHREADS_OPERATION_TIME;
    if (thread->woken || *step == 0)
        return;
    monitor.clock = monitor.earliest - monitor.clock > *step ? monitor.clock + *step : monitor.earliest;
    if (monitor.clock >= monitor.earliest)
        wake_due();
}

/* Tells the sleeper with the first deadline, if there is one, that it is the watcher. */
static void tell_next(void)
{
    monitor.watcher = NULL;
    monitor.earliest = earliest_deadline();
    for (uint32_t i = 0; i < monitor.made && monitor.earliest != NEVER; i++)
        if (threads[i].deadline == monitor.earliest) {
            ring(threads[i].condition);
            return;
        }
}

/* The time of a sleeper may come while others run: it lets some turns pass, and if nothing woke it in them, moves the clock to its
 * deadline. */
static __attribute__((noinline, cold)) void doze(struct dthreads_thread *thread)
{
    thread->asleep = true;
    thread->woken = 0;
    monitor.awake--;
    for (uint32_t i = vary_below(1U << vary_below(DOZES)); i > 0 && !thread->woken; i--)
        monitor_breathe();
    if (!thread->woken) {
        if (monitor.clock < thread->deadline)
            monitor.clock = thread->deadline;
        wake_due();
    }
    tell_next();
    if (thread->asked)
        streams_give();
}

static void sleep_here(struct dthreads_thread *thread)
{
    uint64_t step = 0;
    thread->asleep = true;
    thread->woken = 0;
    monitor_one_less();
    if (!thread->woken)
        monitor_hold();
    while (!thread->woken) {
        if (is_watcher(thread)) {
            watch(thread, &step);
        } else {
            monitor.waiting[thread->condition]++;
            dthreads_wait(thread->condition, MONITOR_MUTEX);
        }
    }
    if (monitor.watcher == thread)
        tell_next();
    if (thread->asked)
        streams_give();
}

static enum wake sleep_in(struct dthreads_queue *queue, uint64_t deadline, bool may_be_cancelled)
{
    struct dthreads_thread *thread = self();
    may_be_cancelled = may_be_cancelled && !own.cancel_disabled && !own.ending;
    if (may_be_cancelled && thread->cancelled)
        return CANCELLED;
    if (deadline <= monitor.clock)
        return TIMED_OUT;
    if (queue)
        append(queue, thread);
    thread->condition = (uint8_t)((uint32_t)(thread - threads) % OWN_CONDITIONS);
    thread->may_be_cancelled = may_be_cancelled;
    thread->deadline = deadline;
    if (deadline < monitor.earliest)
        monitor.earliest = deadline;
    if (varies() && own.locked && is_near(deadline) && vary_one_in(2))
        doze(thread);
    else
        sleep_here(thread);
    return thread->wake;
}

enum wake monitor_sleep(struct dthreads_queue *queue, uint64_t deadline, bool may_be_cancelled)
{
    self()->may_be_interrupted = false;
    return sleep_in(queue, deadline, may_be_cancelled);
}

enum wake monitor_sleep_lightly(struct dthreads_queue *queue, uint64_t deadline, bool may_be_cancelled)
{
    struct dthreads_thread *thread = self();
    if (signals_deliver && thread->pending & ~thread->blocked)
        return INTERRUPTED;
    thread->may_be_interrupted = true;
    return sleep_in(queue, deadline, may_be_cancelled);
}

/* Runs the handlers of the signal that ended a sleep. */
static enum wake handled(enum wake wake)
{
    if (wake == INTERRUPTED) {
        monitor_leave();
        signals_deliver();
        monitor_enter();
    }
    return wake;
}

enum wake monitor_sleep_on(struct dthreads_queue *queue, uint64_t deadline)
{
    /* Within a call of the library handlers would run in the monitor. */
    if (own.depth > 1)
        return monitor_sleep(queue, deadline, false);
    enum wake wake = monitor_sleep_lightly(queue, deadline, own.cancels_at_once);
    if (wake == CANCELLED) {
        monitor_leave();
        cancel_here(wake);
    }
    return handled(wake);
}

enum wake monitor_sleep_in_crowd(struct dthreads_queue *queue, uint32_t crowd)
{
    struct dthreads_thread *thread = self();
    bool may_be_interrupted = signals_deliver && own.depth == 1;
    if (may_be_interrupted && thread->pending & ~thread->blocked)
        return handled(INTERRUPTED);
    append(queue, thread);
    thread->condition = (uint8_t)(OWN_CONDITIONS + crowd % CROWD_CONDITIONS);
    thread->may_be_cancelled = false;
    thread->may_be_interrupted = may_be_interrupted;
    thread->deadline = NEVER;
    sleep_here(thread);
    return handled(thread->wake);
}

void locks_mend(struct own *holder, const void *lock, uint32_t last)
{
    for (uint32_t i = 0; i < last; i++)
        if (holder->locks[i] == lock) {
            holder->locks[i] = holder->locks[last];
            return;
        }
}

/* What a plain access of an atomic object orders: it is sequentially consistent. The access itself is done by the program's own code, up
 * to the second fence, and this stands for it. */
static void access_hints(const struct plain_access *access)
{
    hint_caller(access->place);
    hint_word(HINT_LENGTH, access->size);
    if (access->is_store) {
        hint_object(HINT_ATOMIC_STORE, access->object);
        dthreads_hint_release(access->object);
    } else {
        dthreads_hint_acquire(access->object);
        hint_object(HINT_ATOMIC_LOAD, access->object);
    }
}

/* A fence on its own: the thread stays until its next call of the library. */
static void lone_fence(void)
{
    if (own.by_fence) {
        hint_enter();
        own.by_fence = false;
    } else {
        monitor_enter();
        own.depth--;
        own.by_fence = true;
    }
    hint_word(HINT_FENCE_ACQUIRE, 0);
    hint_word(HINT_FENCE_RELEASE, 0);
    if (own.by_fence)
        hint_leave();
    else
        leave();
}

/* Compilers bracket each plain access of an atomic object by two fences: the first enters the monitor, the second leaves it. `registers`
 * are those of the program, and in the place of x0 the address to which the fence returns. */
void dthreads_fence(const uint32_t *registers)
{
    struct plain_access access;
    if (own.depth > 0)
        return;
    if (own.in_access) {
        own.in_access = false;
        leave();
    } else if (plain_access_find(registers, &access)) {
        monitor_enter();
        own.depth--;
        own.in_access = true;
        access_hints(&access);
    } else {
        lone_fence();
    }
}

void dthreads_synchronise(void)
{
    hint_word(HINT_FENCE_ACQUIRE, 0);
    hint_word(HINT_FENCE_RELEASE, 0);
    if (own.inside)
        monitor_breathe();
    else if (!alone())
        dthreads_sync();
}
