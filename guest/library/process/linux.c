/* What programs for Linux ask of it beyond POSIX, as far as one process has it. */
#define _GNU_SOURCE
#include <signal.h>
#include <stdarg.h>
#include <stdlib.h>
#include <string.h>
#include <sys/auxv.h>
#include <sys/prctl.h>
#include <sys/random.h>
#include <sys/syscall.h>
#include <unistd.h>
#include "../threads/monitor.h"

/* A program may have functions of these names. */
#pragma weak gettid
#pragma weak tgkill
#pragma weak getcpu
#pragma weak getauxval
#pragma weak prctl
#pragma weak syscall
#pragma weak clearenv

static int refuse(int code)
{
    errno = code;
    return -1;
}

/* The first thread has the process's number. */
pid_t gettid(void)
{
    return (pid_t)(self() - threads) + getpid();
}

int tgkill(pid_t process, pid_t number, int signal)
{
    int place = number - getpid();
    if (process != getpid() || place < 0 || place >= DTHREADS_THREADS)
        return refuse(ESRCH);
    int code = pthread_kill((pthread_t)threads[place].generation << 8 | (pthread_t)place, signal);
    return code ? refuse(code) : 0;
}

int getcpu(unsigned *processor, unsigned *node)
{
    if (processor)
        *processor = 0;
    if (node)
        *node = 0;
    return 0;
}

/* Of what Linux tells a program at its start, the pages' size, the ticks of a second, and that it is root's. */
unsigned long getauxval(unsigned long kind)
{
    switch (kind) {
    case AT_PAGESZ:
        return DTHREADS_PAGE;
    case AT_CLKTCK:
        return (unsigned long)sysconf(_SC_CLK_TCK);
    case AT_UID:
    case AT_EUID:
    case AT_GID:
    case AT_EGID:
    case AT_HWCAP:
    case AT_HWCAP2:
    case AT_SECURE:
        return 0;
    default:
        errno = ENOENT;
        return 0;
    }
}

static int set_name(const char *text)
{
    char name[NAME_SIZE] = "";
    memcpy(name, text, strnlen(text, NAME_SIZE - 1));
    return pthread_setname_np(pthread_self(), name);
}

/* The name of a thread alone is kept. */
int prctl(int option, ...)
{
    va_list arguments;
    va_start(arguments, option);
    void *first = va_arg(arguments, void *);
    va_end(arguments);
    switch (option) {
    case PR_SET_NAME:
        return set_name(first);
    case PR_GET_NAME:
        return pthread_getname_np(pthread_self(), first, NAME_SIZE);
    case PR_SET_PDEATHSIG:
    case PR_SET_DUMPABLE:
    case PR_SET_TIMERSLACK:
    case PR_SET_NO_NEW_PRIVS:
        return 0;
    default:
        return refuse(EINVAL);
    }
}

/* The calls that have a number in sys/syscall.h. */
long syscall(long number, ...)
{
    long words[3];
    va_list arguments;
    va_start(arguments, number);
    for (int i = 0; i < 3; i++)
        words[i] = va_arg(arguments, long);
    va_end(arguments);
    switch (number) {
    case SYS_getpid:
        return getpid();
    case SYS_gettid:
        return gettid();
    case SYS_sched_yield:
        return sched_yield();
    case SYS_getcpu:
        return getcpu((unsigned *)words[0], (unsigned *)words[1]);
    case SYS_getrandom:
        return getrandom((void *)words[0], (size_t)words[1], (unsigned)words[2]);
    case SYS_tgkill:
        return tgkill((pid_t)words[0], (pid_t)words[1], (int)words[2]);
    case SYS_exit_group:
        _exit((int)words[0]);
    default:
        return refuse(ENOSYS);
    }
}

int clearenv(void)
{
    if (environ)
        environ[0] = NULL;
    return 0;
}
