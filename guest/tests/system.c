/* What the process and its machine say of themselves, and how what isn't there is refused. */
#define _GNU_SOURCE
#include <dlfcn.h>
#include <errno.h>
#include <limits.h>
#include <pwd.h>
#include <sched.h>
#include <stdio.h>
#include <stdlib.h>
#include <sys/ioctl.h>
#include <sys/resource.h>
#include <sys/socket.h>
#include <sys/sysinfo.h>
#include <sys/utsname.h>
#include <syslog.h>
#include <termios.h>
#include <time.h>
#include <unistd.h>

int main(void)
{
    struct utsname name;
    struct rusage usage;
    struct timespec now;
    struct termios settings;
    char text[HOST_NAME_MAX];
    double loads[3] = {1, 1, 1};
    cpu_set_t set;
    uname(&name);
    printf("%s %s %s %s %s\n", name.sysname, name.nodename, name.release, name.version, name.machine);
    printf("%d %s %s\n", gethostname(text, sizeof text), text, getlogin());
    printf("%d %d %d %d\n", getpid(), getppid(), getpgrp(), setuid(1));
    printf("%s %s\n", getpwuid(0)->pw_name, getpwnam("nobody") ? "?" : "no such user");
    printf("%d %.1f\n", getloadavg(loads, 3), loads[0] + loads[1] + loads[2]);
    sched_getaffinity(0, sizeof set, &set);
    printf("%d %d\n", get_nprocs(), CPU_COUNT(&set));
    usleep(2500000);
    getrusage(RUSAGE_SELF, &usage);
    printf("%d %d\n", (int)usage.ru_utime.tv_sec, (int)usage.ru_stime.tv_sec);
    printf("%d %d\n", timespec_get(&now, TIME_UTC), (int)now.tv_sec);
    printf("%s %s\n", dlopen("libm.so", RTLD_NOW) ? "?" : "not loaded", dlerror());
    printf("%d %d\n", socket(AF_INET, SOCK_STREAM, 0), errno == EAFNOSUPPORT);
    printf("%d %d\n", tcgetattr(0, &settings), errno == ENOTTY);
    printf("%d %d\n", ioctl(1, TIOCGWINSZ, NULL), errno == ENOTTY);
    openlog("tool", LOG_PERROR, LOG_USER);
    syslog(LOG_INFO, "a message %d", 5);
    printf("%ld %ld\n", (long)SSIZE_MAX, (long)_POSIX_VERSION);
    return 0;
}
