/* The C library's page, and what it lacks. */
#ifndef DTHREADS_UNISTD_H
#define DTHREADS_UNISTD_H

#include_next <unistd.h>

#ifdef __cplusplus
extern "C" {
#endif

#ifndef _POSIX_VERSION
#define _POSIX_VERSION 200809L
#endif
#ifndef _POSIX2_VERSION
#define _POSIX2_VERSION 200809L
#endif

extern char **environ;
int gethostname(char *, size_t);
long gethostid(void);
char *getlogin(void);
int getlogin_r(char *, size_t);
int getpagesize(void);
unsigned alarm(unsigned);
int nice(int);
long syscall(long, ...);
pid_t gettid(void);
int daemon(int, int);
void closefrom(int);
#ifdef _GNU_SOURCE
ssize_t copy_file_range(int, off_t *, int, off_t *, size_t, unsigned);
int close_range(unsigned, unsigned, int);
#endif

#ifdef __cplusplus
}
#endif
#endif
