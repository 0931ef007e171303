/* Calls of Linux by their numbers: these alone, since a program asks by a number's name whether there is a call. All others fail with ENOSYS. */
#ifndef _SYS_SYSCALL_H
#define _SYS_SYSCALL_H

#include <unistd.h>

#define __NR_exit_group 94
#define __NR_sched_yield 124
#define __NR_tgkill 131
#define __NR_getcpu 168
#define __NR_getpid 172
#define __NR_gettid 178
#define __NR_getrandom 278

#define SYS_exit_group __NR_exit_group
#define SYS_sched_yield __NR_sched_yield
#define SYS_tgkill __NR_tgkill
#define SYS_getcpu __NR_getcpu
#define SYS_getpid __NR_getpid
#define SYS_gettid __NR_gettid
#define SYS_getrandom __NR_getrandom

#endif
