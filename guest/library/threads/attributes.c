/* Attributes of threads. Priorities and scopes have one value here. */
#include "monitor.h"

static pthread_attr_t ordinary = {DTHREADS_STACK, NULL, DTHREADS_PAGE, PTHREAD_CREATE_JOINABLE};

int pthread_attr_init(pthread_attr_t *attributes)
{
    *attributes = ordinary;
    return 0;
}

int pthread_getattr_default_np(pthread_attr_t *attributes)
{
    *attributes = ordinary;
    return 0;
}

int pthread_setattr_default_np(const pthread_attr_t *attributes)
{
    if (attributes->stack_address)
        return EINVAL;
    monitor_enter();
    ordinary = *attributes;
    monitor_leave();
    return 0;
}

int pthread_attr_destroy(pthread_attr_t *attributes)
{
    (void)attributes;
    return 0;
}

int pthread_attr_setdetachstate(pthread_attr_t *attributes, int state)
{
    if (state != PTHREAD_CREATE_JOINABLE && state != PTHREAD_CREATE_DETACHED)
        return EINVAL;
    attributes->detach_state = state;
    return 0;
}

int pthread_attr_getdetachstate(const pthread_attr_t *attributes, int *state)
{
    *state = attributes->detach_state;
    return 0;
}

int pthread_attr_setstacksize(pthread_attr_t *attributes, size_t size)
{
    if (size < PTHREAD_STACK_MIN)
        return EINVAL;
    attributes->stack_size = size;
    return 0;
}

int pthread_attr_getstacksize(const pthread_attr_t *attributes, size_t *size)
{
    *size = attributes->stack_size;
    return 0;
}

int pthread_attr_setstack(pthread_attr_t *attributes, void *address, size_t size)
{
    if (size < PTHREAD_STACK_MIN)
        return EINVAL;
    attributes->stack_address = address;
    attributes->stack_size = size;
    return 0;
}

int pthread_attr_getstack(const pthread_attr_t *attributes, void **address, size_t *size)
{
    *address = attributes->stack_address;
    *size = attributes->stack_size;
    return 0;
}

/* The same in two parts, the address of a stack that grows downwards being its upper end. */

int pthread_attr_setstackaddr(pthread_attr_t *attributes, void *address)
{
    attributes->stack_address = (char *)address - attributes->stack_size;
    return 0;
}

int pthread_attr_getstackaddr(const pthread_attr_t *attributes, void **address)
{
    *address = (char *)attributes->stack_address + attributes->stack_size;
    return 0;
}

int pthread_attr_setaffinity_np(pthread_attr_t *attributes, size_t size, const cpu_set_t *set)
{
    (void)attributes;
    return sched_setaffinity(0, size, set) == 0 ? 0 : errno;
}

int pthread_attr_getaffinity_np(const pthread_attr_t *attributes, size_t size, cpu_set_t *set)
{
    (void)attributes;
    return sched_getaffinity(0, size, set) == 0 ? 0 : errno;
}

int pthread_attr_setguardsize(pthread_attr_t *attributes, size_t size)
{
    attributes->guard_size = size;
    return 0;
}

int pthread_attr_getguardsize(const pthread_attr_t *attributes, size_t *size)
{
    *size = attributes->guard_size;
    return 0;
}

int pthread_attr_setinheritsched(pthread_attr_t *attributes, int inherit)
{
    (void)attributes;
    return inherit == PTHREAD_INHERIT_SCHED || inherit == PTHREAD_EXPLICIT_SCHED ? 0 : EINVAL;
}

int pthread_attr_getinheritsched(const pthread_attr_t *attributes, int *inherit)
{
    (void)attributes;
    *inherit = PTHREAD_INHERIT_SCHED;
    return 0;
}

int pthread_attr_setschedpolicy(pthread_attr_t *attributes, int policy)
{
    (void)attributes;
    return policy == SCHED_OTHER ? 0 : ENOTSUP;
}

int pthread_attr_getschedpolicy(const pthread_attr_t *attributes, int *policy)
{
    (void)attributes;
    *policy = SCHED_OTHER;
    return 0;
}

int pthread_attr_setschedparam(pthread_attr_t *attributes, const struct sched_param *parameters)
{
    (void)attributes;
    return parameters->sched_priority == 0 ? 0 : ENOTSUP;
}

int pthread_attr_getschedparam(const pthread_attr_t *attributes, struct sched_param *parameters)
{
    (void)attributes;
    parameters->sched_priority = 0;
    return 0;
}

int pthread_attr_setscope(pthread_attr_t *attributes, int scope)
{
    (void)attributes;
    return scope == PTHREAD_SCOPE_SYSTEM ? 0 : scope == PTHREAD_SCOPE_PROCESS ? ENOTSUP : EINVAL;
}

int pthread_attr_getscope(const pthread_attr_t *attributes, int *scope)
{
    (void)attributes;
    *scope = PTHREAD_SCOPE_SYSTEM;
    return 0;
}
