/* The C library's page, also for C++, and the numbers of what Linux tells a program at its start. */
#ifndef DTHREADS_SYS_AUXV_H
#define DTHREADS_SYS_AUXV_H

#ifdef __cplusplus
extern "C" {
#endif

#include_next <sys/auxv.h>

#ifdef __cplusplus
}
#endif

#define AT_PAGESZ 6
#define AT_UID 11
#define AT_EUID 12
#define AT_GID 13
#define AT_EGID 14
#define AT_PLATFORM 15
#define AT_HWCAP 16
#define AT_CLKTCK 17
#define AT_SECURE 23
#define AT_RANDOM 25
#define AT_HWCAP2 26
#define AT_EXECFN 31

#endif
