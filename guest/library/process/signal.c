/* Signals. One is delivered at the next call of the library that is a place for it, or at once if a thread sends itself one;
 * a thread that sleeps lightly is woken for it. */
#include <setjmp.h>
#include <signal.h>
#include <unistd.h>
#include "signals.h"

enum {
    /* The status of a program that a signal ended is its number and this. */
    BY_SIGNAL = 128
};

/* Signals that have no effect if there is no handler. Nothing stops here, so those that stop have none either. */
#define HARMLESS (BIT(SIGCHLD) | BIT(SIGURG) | BIT(SIGWINCH) | BIT(SIGCONT) | BIT(SIGSTOP) | BIT(SIGTSTP) | BIT(SIGTTIN) | BIT(SIGTTOU))
/* Those that no thread can keep waiting. */
#define UNBLOCKABLE (BIT(SIGKILL) | BIT(SIGSTOP))

static struct sigaction actions[NSIG];
static siginfo_t infos[NSIG];

bool is_signal(int signal)
{
    return signal > 0 && signal < NSIG;
}

siginfo_t *signal_info(int signal)
{
    return &infos[signal];
}

static bool is_ignored(int signal)
{
    _sig_func_ptr handler = actions[signal].sa_handler;
    return handler == SIG_IGN || (handler == SIG_DFL && HARMLESS & BIT(signal));
}

__attribute__((noreturn)) static void die(int signal)
{
    output_flush();
    _exit(BY_SIGNAL + signal);
}

/* The first thread that waits for a signal, or else that doesn't block it, or NULL. */
static struct dthreads_thread *taker_of(int signal)
{
    for (uint32_t i = 0; i < monitor.made; i++)
        if (threads[i].life == LIVING && threads[i].awaited & BIT(signal))
            return &threads[i];
    for (uint32_t i = 0; i < monitor.made; i++)
        if (threads[i].life == LIVING && !(threads[i].blocked & BIT(signal)))
            return &threads[i];
    return NULL;
}

void signal_send(struct dthreads_thread *thread, int signal, const siginfo_t *info)
{
    if (!thread)
        thread = taker_of(signal);
    infos[signal] = *info;
    if (!thread) {
        monitor.signals |= BIT(signal);
        return;
    }
    bool is_blocked = (thread->blocked | thread->awaited) & BIT(signal);
    if (!is_blocked && is_ignored(signal))
        return;
    if (!is_blocked && actions[signal].sa_handler == SIG_DFL)
        die(signal);
    thread->pending |= BIT(signal);
    if (thread->asleep && thread->may_be_interrupted && (!is_blocked || thread->awaited & BIT(signal)))
        monitor_wake(thread, INTERRUPTED);
}

/* Takes the lowest signal that came and isn't blocked, and blocks what its action says; false if there is none. */
static bool take_due(int *signal, struct sigaction *action, siginfo_t *info)
{
    struct dthreads_thread *thread = self();
    monitor_enter();
    uint64_t due = thread->pending & ~thread->blocked;
    if (due) {
        *signal = __builtin_ctzll(due);
        *action = actions[*signal];
        *info = infos[*signal];
        thread->pending &= ~BIT(*signal);
        thread->blocked |= action->sa_mask & ~UNBLOCKABLE;
        if (!(action->sa_flags & SA_NODEFER))
            thread->blocked |= BIT(*signal);
        if (action->sa_flags & (int)SA_RESETHAND)
            actions[*signal].sa_handler = SIG_DFL;
    }
    monitor_leave();
    return due != 0;
}

static void run_handler(const struct sigaction *action, int signal, siginfo_t *info)
{
    if (action->sa_flags & SA_SIGINFO)
        action->sa_sigaction(signal, info, NULL);
    else
        action->sa_handler(signal);
}

bool signals_deliver(void)
{
    struct sigaction action;
    siginfo_t info;
    bool restarts = true;
    int signal;
    for (uint64_t blocked = self()->blocked; take_due(&signal, &action, &info); self()->blocked = blocked) {
        if (action.sa_handler == SIG_IGN || (action.sa_handler == SIG_DFL && HARMLESS & BIT(signal)))
            continue;
        if (action.sa_handler == SIG_DFL)
            die(signal);
        int error = errno;
        run_handler(&action, signal, &info);
        errno = error;
        restarts = restarts && action.sa_flags & SA_RESTART;
    }
    return restarts;
}

void signals_abort(void)
{
    self()->blocked &= ~BIT(SIGABRT);
    if (actions[SIGABRT].sa_handler != SIG_DFL)
        raise(SIGABRT);
}

/* What waits for the process comes to a thread that lets it. */
static void take_common(struct dthreads_thread *thread)
{
    uint64_t taken = monitor.signals & ~thread->blocked;
    monitor.signals &= ~taken;
    thread->pending |= taken;
}

int pthread_sigmask(int how, const sigset_t *restrict set, sigset_t *restrict old)
{
    struct dthreads_thread *thread = self();
    if (set && how != SIG_BLOCK && how != SIG_UNBLOCK && how != SIG_SETMASK)
        return EINVAL;
    monitor_enter();
    sigset_t before = thread->blocked;
    if (set)
        thread->blocked = (how == SIG_BLOCK ? before | *set : how == SIG_UNBLOCK ? before & ~*set : *set) & ~UNBLOCKABLE;
    if (old)
        *old = before;
    take_common(thread);
    monitor_finish();
    return 0;
}

int sigprocmask(int how, const sigset_t *restrict set, sigset_t *restrict old)
{
    return signal_result(pthread_sigmask(how, set, old));
}

int sigpending(sigset_t *set)
{
    monitor_enter();
    *set = self()->pending | monitor.signals;
    monitor_leave();
    return 0;
}

int sigaction(int signal, const struct sigaction *restrict action, struct sigaction *restrict old)
{
    if (!is_signal(signal) || (action && UNBLOCKABLE & BIT(signal)))
        return signal_result(EINVAL);
    monitor_enter();
    struct sigaction before = actions[signal];
    if (action)
        actions[signal] = *action;
    if (old)
        *old = before;
    if (is_ignored(signal))
        self()->pending &= ~BIT(signal);
    monitor_finish();
    return 0;
}

_sig_func_ptr signal(int signal, _sig_func_ptr handler)
{
    struct sigaction action = {.sa_handler = handler, .sa_flags = SA_RESTART}, old;
    return sigaction(signal, &action, &old) == 0 ? old.sa_handler : SIG_ERR;
}

static int send_to_thread(pthread_t name, int signal, const siginfo_t *info)
{
    if (signal != 0 && !is_signal(signal))
        return EINVAL;
    monitor_enter();
    struct dthreads_thread *thread = thread_of(name);
    if (thread && thread->life == LIVING && signal != 0)
        signal_send(thread, signal, info);
    monitor_finish();
    return thread ? 0 : ESRCH;
}

int pthread_kill(pthread_t name, int signal)
{
    siginfo_t info = {.si_signo = signal, .si_code = SI_TKILL, .si_pid = getpid()};
    return send_to_thread(name, signal, &info);
}

int pthread_sigqueue(pthread_t name, int signal, const union sigval value)
{
    siginfo_t info = {.si_signo = signal, .si_code = SI_QUEUE, .si_pid = getpid(), .si_value = value};
    return send_to_thread(name, signal, &info);
}

int raise(int signal)
{
    return signal_result(pthread_kill(pthread_self(), signal));
}

static int send_to_process(pid_t process, int signal, const siginfo_t *info)
{
    if (process != getpid() && process != 0 && process != -1)
        return signal_result(ESRCH);
    if (signal != 0 && !is_signal(signal))
        return signal_result(EINVAL);
    monitor_enter();
    if (signal != 0)
        signal_send(self()->blocked & BIT(signal) ? NULL : self(), signal, info);
    monitor_finish();
    return 0;
}

int kill(pid_t process, int signal)
{
    siginfo_t info = {.si_signo = signal, .si_code = SI_USER, .si_pid = getpid()};
    return send_to_process(process, signal, &info);
}

int killpg(pid_t group, int signal)
{
    return kill(group, signal);
}

int sigqueue(pid_t process, int signal, const union sigval value)
{
    siginfo_t info = {.si_signo = signal, .si_code = SI_QUEUE, .si_pid = getpid(), .si_value = value};
    return send_to_process(process, signal, &info);
}

void dthreads_keep_mask(struct dthreads_jump *place, int save)
{
    place->has_mask = save;
    place->mask = self()->blocked;
}

void siglongjmp(struct dthreads_jump *place, int value)
{
    if (place->has_mask)
        pthread_sigmask(SIG_SETMASK, &place->mask, NULL);
    longjmp(place->registers, value);
}
