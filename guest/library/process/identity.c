/* What the process and its machine say of themselves: the same in each run. */
#define _GNU_SOURCE
#include <stdlib.h>
#include <string.h>
#include <sys/resource.h>
#include <sys/sysinfo.h>
#include <sys/times.h>
#include <sys/utsname.h>
#include <unistd.h>
#include "../threads/monitor.h"

enum {
    PROCESSORS = 4
};

#define NAME "dthreads"

extern const char *dthreads_program_name;

static int refuse(int code)
{
    errno = code;
    return -1;
}

int uname(struct utsname *name)
{
    *name = (struct utsname){.sysname = NAME, .nodename = NAME, .release = "1", .version = "1", .machine = "rv32im"};
    return 0;
}

int gethostname(char *text, size_t size)
{
    if (size <= strlen(NAME))
        return refuse(ENAMETOOLONG);
    strcpy(text, NAME);
    return 0;
}

long gethostid(void)
{
    return 0;
}

char *getlogin(void)
{
    return (char *)"root";
}

int getlogin_r(char *text, size_t size)
{
    if (size <= strlen(getlogin()))
        return ERANGE;
    strcpy(text, getlogin());
    return 0;
}

/* No program has more rights than its user. */
char *secure_getenv(const char *name)
{
    return getenv(name);
}

const char *getprogname(void)
{
    return dthreads_program_name;
}

int getpagesize(void)
{
    return DTHREADS_PAGE;
}

int get_nprocs(void)
{
    return PROCESSORS;
}

int get_nprocs_conf(void)
{
    return PROCESSORS;
}

long get_phys_pages(void)
{
    return DTHREADS_HEAP_PAGES;
}

long get_avphys_pages(void)
{
    return DTHREADS_HEAP_PAGES;
}

/* A program may have functions of these names. */
#pragma weak sysinfo
#pragma weak secure_getenv

int sysinfo(struct sysinfo *information)
{
    *information = (struct sysinfo){
        .uptime = (long)(read_clock() / SECOND),
        .totalram = DTHREADS_HEAP_PAGES * DTHREADS_PAGE,
        .freeram = (DTHREADS_HEAP_PAGES - heap_given()) * DTHREADS_PAGE,
        .procs = 1,
        .mem_unit = 1,
    };
    return 0;
}

int getloadavg(double *loads, int count)
{
    for (int i = 0; i < count && i < 3; i++)
        loads[i] = 0;
    return count < 3 ? count : 3;
}

/* The time is the run's clock, of which no part is the system's. */
int getrusage(int who, struct rusage *usage)
{
    uint64_t now = who == RUSAGE_CHILDREN ? 0 : read_clock();
    *usage = (struct rusage){.ru_utime = {.tv_sec = (time_t)(now / SECOND), .tv_usec = (suseconds_t)(now % SECOND / 1000)}};
    if (who != RUSAGE_CHILDREN)
        usage->ru_maxrss = (long)(heap_given() * (DTHREADS_PAGE / 1024));
    return 0;
}

pid_t getppid(void)
{
    return 0;
}

pid_t getpgrp(void)
{
    return getpid();
}

pid_t getpgid(pid_t process)
{
    return process == 0 || process == getpid() ? getpid() : refuse(ESRCH);
}

pid_t getsid(pid_t process)
{
    return getpgid(process);
}

int setpgid(pid_t process, pid_t group)
{
    (void)group;
    return getpgid(process) < 0 ? -1 : 0;
}

pid_t setsid(void)
{
    return refuse(EPERM);
}

int getgroups(int count, gid_t *groups)
{
    (void)count;
    (void)groups;
    return 0;
}

static int stay(id_t user)
{
    return user == 0 || user == (id_t)-1 ? 0 : refuse(EPERM);
}

int setuid(uid_t user)
{
    return stay(user);
}

int seteuid(uid_t user)
{
    return stay(user);
}

int setgid(gid_t group)
{
    return stay(group);
}

int setegid(gid_t group)
{
    return stay(group);
}
