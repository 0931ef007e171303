/* What the tests of glibc name and no header of this machine has: names of glibc's own headers, macros without effect here. */
#ifndef DTHREADS_GLIBC_H
#define DTHREADS_GLIBC_H

#include <errno.h>
#include <limits.h>
#include <sys/types.h>

#define __attribute_alloc_size__(arguments)
#define __attribute_alloc_align__(arguments)
#define __attribute_nonstring__
#define __attr_dealloc(function, argument)
#define __attr_dealloc_free
#define __returns_nonnull
#define __attribute_maybe_unused__ __attribute__((unused))
#define __attribute_used__ __attribute__((used))
#define __attribute_noinline__ __attribute__((noinline))
#define __attribute__optimize_size__

typedef long long loff_t;
typedef off_t off64_t;
typedef ino_t ino64_t;
#define stat64 stat
#define fstat64 fstat
#define lstat64 lstat

#define program_invocation_short_name "test"
#define _PATH_TMP "/tmp/"
#define _STACK_GROWS_DOWN 1
#define M_PERTURB (-6)
#ifndef MAP_FILE
#define MAP_FILE 0
#endif
#ifndef NAME_MAX
#define NAME_MAX 255
#endif
#ifndef TEMP_FAILURE_RETRY
#define TEMP_FAILURE_RETRY(call) (__extension__({ \
        long dthreads_result; \
        do \
            dthreads_result = (long)(call); \
        while (dthreads_result == -1 && errno == EINTR); \
        dthreads_result; \
    }))
#endif

#endif
