/* Functions on signals that older programs use. */
#include <stdio.h>
#include <string.h>
#include "signals.h"

static int change(int how, int signal)
{
    sigset_t set = is_signal(signal) ? BIT(signal) : 0;
    return set ? sigprocmask(how, &set, NULL) : signal_result(EINVAL);
}

int sighold(int signal)
{
    return change(SIG_BLOCK, signal);
}

int sigrelse(int signal)
{
    return change(SIG_UNBLOCK, signal);
}

int sigignore(int number)
{
    return signal(number, SIG_IGN) == SIG_ERR ? -1 : 0;
}

_sig_func_ptr sigset(int number, _sig_func_ptr handler)
{
    _sig_func_ptr old = signal(number, handler);
    if (old != SIG_ERR)
        sigrelse(number);
    return old;
}

int sigpause(int signal)
{
    sigset_t mask = self()->blocked;
    sigdelset(&mask, signal);
    return sigsuspend(&mask);
}

/* Masks of an int have the signals 1 to 31, each by the bit of its number. */

static int mask_after(int how, int mask)
{
    sigset_t set = (uint32_t)mask, old;
    sigprocmask(how, &set, &old);
    return (int)(uint32_t)old;
}

int sigblock(int mask)
{
    return mask_after(SIG_BLOCK, mask);
}

int sigsetmask(int mask)
{
    return mask_after(SIG_SETMASK, mask);
}

int siggetmask(void)
{
    return mask_after(SIG_BLOCK, 0);
}

int siginterrupt(int signal, int interrupts)
{
    struct sigaction action;
    if (sigaction(signal, NULL, &action) != 0)
        return -1;
    action.sa_flags = interrupts ? action.sa_flags & ~SA_RESTART : action.sa_flags | SA_RESTART;
    return sigaction(signal, &action, NULL);
}

/* Handlers run on the stack of their thread. */
int sigaltstack(const stack_t *restrict stack, stack_t *restrict old)
{
    static stack_t kept = {.ss_flags = SS_DISABLE};
    if (old)
        *old = kept;
    if (stack)
        kept = *stack;
    return 0;
}

static const char *const names[NSIG] = {
    [SIGHUP] = "Hangup", [SIGINT] = "Interrupt", [SIGQUIT] = "Quit", [SIGILL] = "Illegal instruction",
    [SIGTRAP] = "Trace/breakpoint trap", [SIGABRT] = "Aborted", [SIGBUS] = "Bus error", [SIGFPE] = "Floating point exception",
    [SIGKILL] = "Killed", [SIGUSR1] = "User defined signal 1", [SIGSEGV] = "Segmentation fault",
    [SIGUSR2] = "User defined signal 2", [SIGPIPE] = "Broken pipe", [SIGALRM] = "Alarm clock", [SIGTERM] = "Terminated",
    [SIGSTKFLT] = "Stack fault", [SIGCHLD] = "Child exited", [SIGCONT] = "Continued", [SIGSTOP] = "Stopped (signal)",
    [SIGTSTP] = "Stopped", [SIGTTIN] = "Stopped (tty input)", [SIGTTOU] = "Stopped (tty output)",
    [SIGURG] = "Urgent I/O condition", [SIGXCPU] = "CPU time limit exceeded", [SIGXFSZ] = "File size limit exceeded",
    [SIGVTALRM] = "Virtual timer expired", [SIGPROF] = "Profiling timer expired", [SIGWINCH] = "Window changed",
    [SIGIO] = "I/O possible", [SIGPWR] = "Power failure", [SIGSYS] = "Bad system call",
};

char *strsignal(int signal)
{
    static char text[32];
    if (is_signal(signal) && names[signal])
        return (char *)names[signal];
    snprintf(text, sizeof text, "Unknown signal %d", signal);
    return text;
}

void psignal(int signal, const char *message)
{
    fprintf(stderr, "%s%s%s\n", message ? message : "", message && *message ? ": " : "", strsignal(signal));
}

void psiginfo(const siginfo_t *info, const char *message)
{
    psignal(info->si_signo, message);
}
