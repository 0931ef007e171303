/* Waits for signals. */
#include "signals.h"

/* Takes the lowest signal of a set that came to this thread or to the process, or 0. */
static int take_of(uint64_t set)
{
    struct dthreads_thread *thread = self();
    uint64_t due = (thread->pending | monitor.signals) & set;
    if (!due)
        return 0;
    int signal = __builtin_ctzll(due);
    if (thread->pending & BIT(signal))
        thread->pending &= ~BIT(signal);
    else
        monitor.signals &= ~BIT(signal);
    return signal;
}

/* The signal that came, or 0 with why the wait ended. */
static int wait_for(uint64_t set, uint64_t deadline, enum wake *wake)
{
    struct dthreads_thread *thread = self();
    monitor_enter();
    int signal = take_of(set);
    *wake = WOKEN;
    if (signal == 0) {
        thread->awaited = set;
        *wake = monitor_sleep_lightly(NULL, deadline, true);
        thread->awaited = 0;
        signal = take_of(set);
    }
    monitor_finish();
    if (signal == 0)
        cancel_here(*wake);
    return signal;
}

int sigwait(const sigset_t *restrict set, int *restrict signal)
{
    enum wake wake;
    do
        *signal = wait_for(*set, NEVER, &wake);
    while (*signal == 0);
    return 0;
}

static int wait_with_info(const sigset_t *set, siginfo_t *info, uint64_t deadline)
{
    enum wake wake;
    int signal = wait_for(*set, deadline, &wake);
    if (signal == 0) {
        errno = wake == TIMED_OUT ? EAGAIN : EINTR;
        return -1;
    }
    if (info)
        *info = *signal_info(signal);
    return signal;
}

int sigwaitinfo(const sigset_t *restrict set, siginfo_t *restrict info)
{
    return wait_with_info(set, info, NEVER);
}

int sigtimedwait(const sigset_t *restrict set, siginfo_t *restrict info, const struct timespec *restrict time)
{
    if (!time)
        return wait_with_info(set, info, NEVER);
    if (time->tv_nsec < 0 || time->tv_nsec >= (long)SECOND || time->tv_sec < 0)
        return signal_result(EINVAL);
    return wait_with_info(set, info, read_clock() + (uint64_t)time->tv_sec * SECOND + (uint64_t)time->tv_nsec);
}

/* With another mask until a handler has run. */
int sigsuspend(const sigset_t *mask)
{
    struct dthreads_thread *thread = self();
    uint64_t before = thread->blocked;
    monitor_enter();
    thread->blocked = *mask & ~BIT(SIGKILL) & ~BIT(SIGSTOP);
    uint64_t taken = monitor.signals & ~thread->blocked;
    monitor.signals &= ~taken;
    thread->pending |= taken;
    enum wake wake = monitor_sleep_lightly(NULL, NEVER, true);
    monitor_finish();
    thread->blocked = before;
    cancel_here(wake);
    errno = EINTR;
    return -1;
}
