/* Functions on the clock. Each clock is the one of the run, those of the day with the day at its start. */
#define _GNU_SOURCE
#include <sys/time.h>
#include <sys/times.h>
#include <unistd.h>
#include "../threads/monitor.h"

static bool is_clock(clockid_t clock)
{
    return clock <= CLOCK_BOOTTIME;
}

static struct timespec timespec_of(uint64_t nanoseconds)
{
    return (struct timespec){.tv_sec = (time_t)(nanoseconds / SECOND), .tv_nsec = (long)(nanoseconds % SECOND)};
}

int clock_gettime(clockid_t clock, struct timespec *time)
{
    if (!is_clock(clock)) {
        errno = EINVAL;
        return -1;
    }
    *time = timespec_of(read_clock());
    if (clock == CLOCK_REALTIME || clock == CLOCK_REALTIME_COARSE)
        time->tv_sec += dthreads_epoch;
    return 0;
}

int clock_getres(clockid_t clock, struct timespec *resolution)
{
    if (!is_clock(clock)) {
        errno = EINVAL;
        return -1;
    }
    if (resolution)
        *resolution = (struct timespec){.tv_nsec = DTHREADS_OPERATION_TIME};
    return 0;
}

int timespec_get(struct timespec *time, int base)
{
    return clock_gettime(CLOCK_REALTIME, time) == 0 ? base : 0;
}

time_t time(time_t *place)
{
    time_t now = (time_t)(read_clock() / SECOND) + dthreads_epoch;
    if (place)
        *place = now;
    return now;
}

int gettimeofday(struct timeval *restrict time, void *restrict zone)
{
    struct timespec now;
    (void)zone;
    clock_gettime(CLOCK_REALTIME, &now);
    time->tv_sec = now.tv_sec;
    time->tv_usec = now.tv_nsec / 1000;
    return 0;
}

clock_t clock(void)
{
    return (clock_t)(read_clock() / (SECOND / CLOCKS_PER_SEC));
}

clock_t times(struct tms *times)
{
    clock_t now = clock();
    *times = (struct tms){.tms_utime = now};
    return now;
}

/* Sleeps for so long, or up to that time if it isn't relative; what is left of it if a signal came. */
static uint64_t sleep_until(uint64_t time, bool is_relative)
{
    monitor_enter();
    uint64_t deadline = is_relative ? monitor.clock + time : time;
    enum wake wake = monitor_sleep_lightly(NULL, deadline, true);
    uint64_t left = wake == INTERRUPTED && deadline > monitor.clock ? deadline - monitor.clock : wake == INTERRUPTED;
    monitor_finish();
    cancel_here(wake);
    return left;
}

int clock_nanosleep(clockid_t clock, int flags, const struct timespec *time, struct timespec *rest)
{
    uint64_t deadline;
    if (!deadline_of(flags & TIMER_ABSTIME ? clock : CLOCK_MONOTONIC, time, &deadline) || !is_clock(clock))
        return EINVAL;
    uint64_t left = sleep_until(deadline, !(flags & TIMER_ABSTIME));
    if (rest && !(flags & TIMER_ABSTIME))
        *rest = timespec_of(left);
    return left ? EINTR : 0;
}

int nanosleep(const struct timespec *time, struct timespec *rest)
{
    int code = clock_nanosleep(CLOCK_MONOTONIC, 0, time, rest);
    if (code == 0)
        return 0;
    errno = code;
    return -1;
}

int usleep(useconds_t microseconds)
{
    if (sleep_until((uint64_t)microseconds * 1000, true) == 0)
        return 0;
    errno = EINTR;
    return -1;
}

unsigned sleep(unsigned seconds)
{
    return (unsigned)((sleep_until(seconds * SECOND, true) + SECOND - 1) / SECOND);
}

/* Ends by a signal or the thread's cancellation. */
int pause(void)
{
    monitor_enter();
    enum wake wake = monitor_sleep_lightly(NULL, NEVER, true);
    monitor_finish();
    cancel_here(wake);
    errno = EINTR;
    return -1;
}

int sched_yield(void)
{
    monitor_enter();
    monitor_leave();
    monitor_breathe();
    signal_point();
    return 0;
}
