/* The clock: each operation moves it on, and if all threads wait it jumps to the next deadline. */
#include "../threads/monitor.h"

bool deadline_of(clockid_t clock, const struct timespec *time, uint64_t *deadline)
{
    if (time->tv_nsec < 0 || time->tv_nsec >= (long)SECOND || (clock != CLOCK_REALTIME && clock != CLOCK_MONOTONIC))
        return false;
    int64_t seconds = time->tv_sec - (clock == CLOCK_REALTIME ? dthreads_epoch : 0);
    if (seconds >= (int64_t)(NEVER / SECOND))
        *deadline = NEVER;
    else
        *deadline = seconds < 0 ? 0 : (uint64_t)seconds * SECOND + (uint64_t)time->tv_nsec;
    return true;
}

uint64_t read_clock(void)
{
    monitor_enter();
    uint64_t now = monitor.clock;
    monitor_finish();
    return now;
}
