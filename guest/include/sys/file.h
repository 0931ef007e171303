/* Locks of whole files, which one process needs none of: they are always given. */
#ifndef DTHREADS_SYS_FILE_H
#define DTHREADS_SYS_FILE_H

#include <fcntl.h>

#ifndef LOCK_SH
#define LOCK_SH 1
#define LOCK_EX 2
#define LOCK_NB 4
#define LOCK_UN 8
#endif

#ifdef __cplusplus
extern "C" {
#endif

int flock(int, int);

#ifdef __cplusplus
}
#endif
#endif
