/* What attributes keep without an effect, in a word beside a kind: all threads are of one process, and have one priority. */
#ifndef KEPT_H
#define KEPT_H

#include <errno.h>
#include <pthread.h>

enum {
    KEPT_SHARED = 0x100,
    KEPT_INHERITED = 0x200,
    /* The kind itself. */
    KIND = 0xff
};

/* Keeps whether an object is shared between processes, and returns 0 or an error number. */
static inline int keep_shared(int *word, int shared)
{
    if (shared != PTHREAD_PROCESS_PRIVATE && shared != PTHREAD_PROCESS_SHARED)
        return EINVAL;
    *word = (*word & ~KEPT_SHARED) | (shared == PTHREAD_PROCESS_SHARED ? KEPT_SHARED : 0);
    return 0;
}

static inline int kept_shared(int word)
{
    return word & KEPT_SHARED ? PTHREAD_PROCESS_SHARED : PTHREAD_PROCESS_PRIVATE;
}

#endif
