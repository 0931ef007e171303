/* The alarm and the timer of the clock, which send SIGALRM. */
#include <sys/time.h>
#include <unistd.h>
#include "signals.h"

void alarm_ring(void)
{
    siginfo_t info = {.si_signo = SIGALRM, .si_code = SI_KERNEL};
    monitor.alarm = monitor.alarm_interval ? monitor.alarm + monitor.alarm_interval : NEVER;
    signal_send(NULL, SIGALRM, &info);
}

/* Sets the alarm, or none for a time of 0; how long the one before would have taken. */
static uint64_t set_alarm(uint64_t time, uint64_t interval)
{
    monitor_enter();
    uint64_t left = monitor.alarm == NEVER ? 0 : monitor.alarm > monitor.clock ? monitor.alarm - monitor.clock : 1;
    monitor.alarm = time ? monitor.clock + time : NEVER;
    monitor.alarm_interval = interval;
    if (monitor.alarm < monitor.earliest)
        monitor.earliest = monitor.alarm;
    monitor_finish();
    return left;
}

unsigned alarm(unsigned seconds)
{
    return (unsigned)((set_alarm(seconds * SECOND, 0) + SECOND - 1) / SECOND);
}

useconds_t ualarm(useconds_t time, useconds_t interval)
{
    return (useconds_t)(set_alarm((uint64_t)time * 1000, (uint64_t)interval * 1000) / 1000);
}

static uint64_t nanoseconds_of(const struct timeval *time)
{
    return (uint64_t)time->tv_sec * SECOND + (uint64_t)time->tv_usec * 1000;
}

static struct timeval timeval_of(uint64_t nanoseconds)
{
    return (struct timeval){.tv_sec = (time_t)(nanoseconds / SECOND), .tv_usec = (suseconds_t)(nanoseconds % SECOND / 1000)};
}

int getitimer(int which, struct itimerval *timer)
{
    if (which != ITIMER_REAL)
        return signal_result(EINVAL);
    monitor_enter();
    uint64_t left = monitor.alarm == NEVER ? 0 : monitor.alarm > monitor.clock ? monitor.alarm - monitor.clock : 1000;
    timer->it_value = timeval_of(left);
    timer->it_interval = timeval_of(monitor.alarm_interval);
    monitor_leave();
    return 0;
}

/* A timer of the time that threads compute has nothing to count. */
int setitimer(int which, const struct itimerval *restrict timer, struct itimerval *restrict old)
{
    if (which != ITIMER_REAL)
        return signal_result(EINVAL);
    if (old)
        getitimer(which, old);
    set_alarm(nanoseconds_of(&timer->it_value), nanoseconds_of(&timer->it_interval));
    return 0;
}
