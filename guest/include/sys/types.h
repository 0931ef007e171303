/* The C library's page, and the types of pthread.h. */
#ifndef DTHREADS_SYS_TYPES_H
#define DTHREADS_SYS_TYPES_H

#include_next <sys/types.h>
#include <dthreads/types.h>
#include <dthreads/large_files.h>
/* As on Linux: fd_set and struct timeval. */
#if __MISC_VISIBLE
#include <sys/select.h>
#endif

#endif
