/* What only a system's owner may do, and what there is nothing to do for. */
#include <errno.h>
#include <grp.h>
#include <stdbool.h>
#include <time.h>
#include <unistd.h>
#include <sys/time.h>

static int refuse(int code)
{
    errno = code;
    return -1;
}

/* The clock is the run's, and nobody sets it. */
int clock_settime(clockid_t clock, const struct timespec *time)
{
    (void)clock;
    (void)time;
    return refuse(EPERM);
}

int settimeofday(const struct timeval *time, const struct timezone *zone)
{
    (void)time;
    (void)zone;
    return refuse(EPERM);
}

int adjtime(const struct timeval *change, struct timeval *left)
{
    (void)change;
    (void)left;
    return refuse(EPERM);
}

int chroot(const char *path)
{
    (void)path;
    return refuse(EPERM);
}

/* There is one user in one group. */
int setreuid(uid_t real, uid_t effective)
{
    bool is_same = (real == 0 || real == (uid_t)-1) && (effective == 0 || effective == (uid_t)-1);
    return is_same ? 0 : refuse(EPERM);
}

int setregid(gid_t real, gid_t effective)
{
    return setreuid((uid_t)real, (uid_t)effective);
}

int setgroups(int count, const gid_t *groups)
{
    (void)groups;
    return count == 0 ? 0 : refuse(EPERM);
}

int initgroups(const char *name, gid_t group)
{
    (void)name;
    return group == 0 ? 0 : refuse(EPERM);
}
