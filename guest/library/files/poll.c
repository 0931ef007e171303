/* Waiting for one of several descriptors. Only pipes ever let anyone wait. */
#include <poll.h>
#include <sys/select.h>
#include "files.h"

static int look(struct pollfd *all, nfds_t count)
{
    int ready = 0;
    for (nfds_t i = 0; i < count; i++) {
        struct open_file *file = file_of(all[i].fd);
        int events = file ? file_events(file) : POLLNVAL;
        all[i].revents = all[i].fd < 0 ? 0 : (short)(events & (all[i].events | POLLERR | POLLHUP | POLLNVAL));
        ready += all[i].revents != 0;
    }
    return ready;
}

/* Deadlines beside the clock: NULL waits for ever, zeros not at all. */
static bool deadline_in(const struct timespec *time, uint64_t *deadline)
{
    *deadline = NEVER;
    if (!time)
        return true;
    if (time->tv_sec < 0 || time->tv_nsec < 0 || time->tv_nsec >= (long)SECOND)
        return false;
    uint64_t length = (uint64_t)time->tv_sec * SECOND + (uint64_t)time->tv_nsec;
    *deadline = length ? monitor.clock + length : 0;
    return true;
}

static int poll_until(struct pollfd *all, nfds_t count, uint64_t deadline)
{
    for (;;) {
        int ready = look(all, count);
        if (ready > 0 || deadline == 0)
            return ready;
        enum wake wake = monitor_sleep_lightly(&pollers, deadline, true);
        if (wake == CANCELLED)
            return -ECANCELED;
        if (wake == INTERRUPTED)
            return -EINTR;
        if (wake == TIMED_OUT)
            return look(all, count);
    }
}

int ppoll(struct pollfd *all, nfds_t count, const struct timespec *time, const sigset_t *mask)
{
    uint64_t deadline;
    (void)mask;
    monitor_enter();
    bool is_time = deadline_in(time, &deadline);
    return files_finish(!is_time || count > DESCRIPTORS ? -EINVAL : poll_until(all, count, deadline));
}

int poll(struct pollfd *all, nfds_t count, int milliseconds)
{
    struct timespec time = {.tv_sec = milliseconds / 1000, .tv_nsec = milliseconds % 1000 * 1000000L};
    return ppoll(all, count, milliseconds < 0 ? NULL : &time, NULL);
}

/* select, by the events of poll. */

struct sets {
    fd_set *reading, *writing, *failing;
};

static bool is_in(int descriptor, const fd_set *set)
{
    return set && FD_ISSET(descriptor, set);
}

/* The descriptors of the sets as poll has them; a negative number for one that is not open. */
static int gather(int count, const struct sets *sets, struct pollfd *all)
{
    int used = 0;
    for (int i = 0; i < count; i++) {
        int events = (is_in(i, sets->reading) ? POLLIN : 0) | (is_in(i, sets->writing) ? POLLOUT : 0)
            | (is_in(i, sets->failing) ? POLLPRI : 0);
        if (events && !file_of(i))
            return -EBADF;
        if (events)
            all[used++] = (struct pollfd){.fd = i, .events = (short)events};
    }
    return used;
}

/* Leaves in a set the descriptors for which one of the events holds. */
static int scatter(fd_set *set, const struct pollfd *all, int used, int wanted, int events)
{
    int count = 0;
    if (!set)
        return 0;
    FD_ZERO(set);
    for (int i = 0; i < used; i++)
        if (all[i].events & wanted && all[i].revents & events) {
            FD_SET(all[i].fd, set);
            count++;
        }
    return count;
}

static int select_here(int count, const struct sets *sets, const struct timespec *time)
{
    struct pollfd all[FD_SETSIZE];
    uint64_t deadline;
    if (count < 0 || count > FD_SETSIZE || !deadline_in(time, &deadline))
        return -EINVAL;
    int used = gather(count, sets, all);
    int ready = used < 0 ? used : poll_until(all, (nfds_t)used, deadline);
    if (ready < 0)
        return ready;
    return scatter(sets->reading, all, used, POLLIN, POLLIN | POLLHUP | POLLERR)
        + scatter(sets->writing, all, used, POLLOUT, POLLOUT | POLLERR) + scatter(sets->failing, all, used, POLLPRI, POLLPRI);
}

int pselect(int count, fd_set *reading, fd_set *writing, fd_set *failing, const struct timespec *time, const sigset_t *mask)
{
    struct sets sets = {reading, writing, failing};
    (void)mask;
    monitor_enter();
    return files_finish(select_here(count, &sets, time));
}

int select(int count, fd_set *reading, fd_set *writing, fd_set *failing, struct timeval *time)
{
    struct timespec length;
    if (time)
        length = (struct timespec){.tv_sec = time->tv_sec, .tv_nsec = (long)time->tv_usec * 1000};
    return pselect(count, reading, writing, failing, time ? &length : NULL, NULL);
}
