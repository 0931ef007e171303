/* A bit for each signal, and what GNU has on sets of them. */
#ifndef _SYS__SIGSET_H_
#define _SYS__SIGSET_H_

__extension__ typedef unsigned long long __sigset_t;

#ifdef _GNU_SOURCE
#ifdef __cplusplus
extern "C" {
#endif

int sigisemptyset(const __sigset_t *);
int sigandset(__sigset_t *, const __sigset_t *, const __sigset_t *);
int sigorset(__sigset_t *, const __sigset_t *, const __sigset_t *);

#ifdef __cplusplus
}
#endif
#endif

#endif
