/* Priorities and limits of the process, which has the machine for itself. */
#include <sys/resource.h>
#include "../threads/monitor.h"

/* Open descriptors at most. */
#define DESCRIPTORS 256

int getpriority(int which, id_t who)
{
    (void)which;
    (void)who;
    return 0;
}

int setpriority(int which, id_t who, int priority)
{
    (void)which;
    (void)who;
    (void)priority;
    return 0;
}

int nice(int more)
{
    (void)more;
    return 0;
}

int getrlimit(int resource, struct rlimit *limit)
{
    rlim_t most = RLIM_INFINITY;
    if (resource == RLIMIT_NOFILE)
        most = DESCRIPTORS;
    if (resource == RLIMIT_STACK)
        most = DTHREADS_FIRST_STACK;
    if (resource == RLIMIT_DATA || resource == RLIMIT_AS)
        most = (rlim_t)DTHREADS_HEAP_PAGES * DTHREADS_PAGE;
    *limit = (struct rlimit){most, most};
    return 0;
}

int setrlimit(int resource, const struct rlimit *limit)
{
    (void)resource;
    (void)limit;
    return 0;
}
