/* One policy, one priority, and no choice of processors. */
#include <sched.h>
#include <string.h>
#include "monitor.h"

static int refuse(int code)
{
    errno = code;
    return -1;
}

int sched_get_priority_max(int policy)
{
    return policy == SCHED_OTHER ? 0 : refuse(EINVAL);
}

int sched_get_priority_min(int policy)
{
    return policy == SCHED_OTHER ? 0 : refuse(EINVAL);
}

int sched_getparam(pid_t process, struct sched_param *parameters)
{
    (void)process;
    parameters->sched_priority = 0;
    return 0;
}

int sched_setparam(pid_t process, const struct sched_param *parameters)
{
    (void)process;
    return parameters->sched_priority == 0 ? 0 : refuse(EINVAL);
}

int sched_getscheduler(pid_t process)
{
    (void)process;
    return SCHED_OTHER;
}

int sched_setscheduler(pid_t process, int policy, const struct sched_param *parameters)
{
    (void)process;
    return policy == SCHED_OTHER && parameters->sched_priority == 0 ? 0 : refuse(EPERM);
}

int sched_rr_get_interval(pid_t process, struct timespec *interval)
{
    (void)process;
    *interval = (struct timespec){.tv_nsec = DTHREADS_OPERATION_TIME};
    return 0;
}

int sched_getcpu(void)
{
    return 0;
}

int sched_getaffinity(pid_t process, size_t size, cpu_set_t *set)
{
    (void)process;
    memset(set, 0, size);
    if (size >= sizeof set->bits[0])
        set->bits[0] = 0xf;
    return 0;
}

int sched_setaffinity(pid_t process, size_t size, const cpu_set_t *set)
{
    (void)process;
    (void)size;
    (void)set;
    return 0;
}

int pthread_getaffinity_np(pthread_t thread, size_t size, cpu_set_t *set)
{
    (void)thread;
    return sched_getaffinity(0, size, set);
}

int pthread_setaffinity_np(pthread_t thread, size_t size, const cpu_set_t *set)
{
    (void)thread;
    return sched_setaffinity(0, size, set);
}
