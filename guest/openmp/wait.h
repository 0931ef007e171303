/* What the barriers of libgomp that are made for Linux wait by, in place of its futexes. */
#ifndef GOMP_WAIT_H
#define GOMP_WAIT_H 1

#include "libgomp.h"

/* Sleeps while a word has this value. */
void futex_wait(int *word, int value);
/* Wakes those that sleep at a word, at most so many. */
void futex_wake(int *word, int count);

static inline void do_wait(int *word, int value)
{
    futex_wait(word, value);
}

#endif
