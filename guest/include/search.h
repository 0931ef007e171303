/* The C library's page, and what it lacks. */
#ifndef DTHREADS_SEARCH_H
#define DTHREADS_SEARCH_H

#include <stddef.h>
#include_next <search.h>

#ifdef __cplusplus
extern "C" {
#endif

void insque(void *, void *);
void remque(void *);
void *lfind(const void *, const void *, size_t *, size_t, int (*)(const void *, const void *));
void *lsearch(const void *, void *, size_t *, size_t, int (*)(const void *, const void *));

#ifdef __cplusplus
}
#endif
#endif
