/* The C library's page, and what it lacks. */
#ifndef DTHREADS_TIME_H
#define DTHREADS_TIME_H

/* Two more fields of struct tm. */
#define __TM_GMTOFF tm_gmtoff
#define __TM_ZONE tm_zone

#include_next <time.h>

#ifdef __cplusplus
extern "C" {
#endif

/* Functions that set or read these fields, by other names in a program's file: the C library's own don't know them. */
struct tm *gmtime(const time_t *) __asm__("dthreads_gmtime");
struct tm *gmtime_r(const time_t *__restrict, struct tm *__restrict) __asm__("dthreads_gmtime_r");
struct tm *localtime(const time_t *) __asm__("dthreads_localtime");
struct tm *localtime_r(const time_t *__restrict, struct tm *__restrict) __asm__("dthreads_localtime_r");
time_t mktime(struct tm *) __asm__("dthreads_mktime");
#if __BSD_VISIBLE || __SVID_VISIBLE || __GNU_VISIBLE
time_t timegm(struct tm *) __asm__("dthreads_timegm");
time_t timelocal(struct tm *) __asm__("dthreads_mktime");
#endif
size_t strftime(char *__restrict, size_t, const char *__restrict, const struct tm *__restrict) __asm__("dthreads_strftime");

#ifndef TIME_UTC
#define TIME_UTC 1
int timespec_get(struct timespec *, int);
#endif

#ifdef __cplusplus
}
#endif
#endif
