/* What little there is of a process of POSIX. */
#include <signal.h>
#include <unistd.h>
#include "../files/console.h"

/* Open descriptors at most, and bytes of arguments. */
#define DESCRIPTORS 256
#define ARGUMENTS 65536

enum {
    PROCESS = 1,
    PROCESSORS = 4
};

static int refuse(int code)
{
    errno = code;
    return -1;
}

pid_t getpid(void)
{
    return PROCESS;
}

/* The standard stream of the console that a descriptor has open, or another number. */
static int console_of(int descriptor)
{
    return files_console ? files_console(descriptor) : descriptor;
}

ssize_t write(int descriptor, const void *bytes, size_t length)
{
    int console = console_of(descriptor);
    cancel_point();
    if (console == STDOUT_FILENO || console == STDERR_FILENO)
        return console_write_some(console, bytes, length);
    return files_write ? files_write(descriptor, bytes, length) : refuse(EBADF);
}

ssize_t read(int descriptor, void *bytes, size_t length)
{
    cancel_point();
    if (console_of(descriptor) == STDIN_FILENO)
        return console_read_some(bytes, length);
    return files_read ? files_read(descriptor, bytes, length) : refuse(EBADF);
}

int isatty(int file)
{
    (void)file;
    errno = ENOTTY;
    return 0;
}

long sysconf(int name)
{
    switch (name) {
    case _SC_PAGESIZE:
        return DTHREADS_PAGE;
    case _SC_NPROCESSORS_CONF:
    case _SC_NPROCESSORS_ONLN:
        return PROCESSORS;
    case _SC_PHYS_PAGES:
        return DTHREADS_HEAP_PAGES;
    case _SC_AVPHYS_PAGES:
        return DTHREADS_HEAP_PAGES;
    case _SC_CLK_TCK:
        return CLOCKS_PER_SEC;
    case _SC_VERSION:
        return _POSIX_VERSION;
    case _SC_ARG_MAX:
        return ARGUMENTS;
    case _SC_GETPW_R_SIZE_MAX:
        return 64;
    case _SC_OPEN_MAX:
        return DESCRIPTORS;
    case _SC_THREAD_KEYS_MAX:
        return PTHREAD_KEYS_MAX;
    case _SC_THREAD_STACK_MIN:
        return PTHREAD_STACK_MIN;
    case _SC_THREAD_THREADS_MAX:
        return PTHREAD_THREADS_MAX;
    case _SC_SEM_VALUE_MAX:
        return SEM_VALUE_MAX;
    default:
        return refuse(EINVAL);
    }
}
