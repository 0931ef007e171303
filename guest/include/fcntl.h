/* The C library's page, and what it lacks. */
#ifndef DTHREADS_FCNTL_H
#define DTHREADS_FCNTL_H

#include_next <fcntl.h>
#include <sys/types.h>

#ifdef __cplusplus
extern "C" {
#endif

#ifndef O_DSYNC
#define O_DSYNC O_SYNC
#define O_RSYNC O_SYNC
#endif
#define POSIX_FADV_NORMAL 0
#define POSIX_FADV_RANDOM 1
#define POSIX_FADV_SEQUENTIAL 2
#define POSIX_FADV_WILLNEED 3
#define POSIX_FADV_DONTNEED 4
#define POSIX_FADV_NOREUSE 5

int posix_fadvise(int, off_t, off_t, int);
int posix_fallocate(int, off_t, off_t);
#ifdef _GNU_SOURCE
#define FALLOC_FL_KEEP_SIZE 1
#define FALLOC_FL_PUNCH_HOLE 2
int fallocate(int, int, off_t, off_t);
ssize_t copy_file_range(int, off_t *, int, off_t *, size_t, unsigned);
int close_range(unsigned, unsigned, int);
#endif

#ifdef __cplusplus
}
#endif
#endif
