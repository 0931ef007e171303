/* The C library's page, and what it lacks: there is one policy, one priority, and no choice of processors. */
#ifndef DTHREADS_SCHED_H
#define DTHREADS_SCHED_H

#include <sys/types.h>
#include <time.h>
#include_next <sched.h>
#include <sys/sched.h>
#ifdef _GNU_SOURCE
#include <stdlib.h>
#endif

#ifdef __cplusplus
extern "C" {
#endif

#ifndef SCHED_BATCH
#define SCHED_BATCH 3
#define SCHED_IDLE 5
#endif

#define CPU_SETSIZE 64
typedef struct {
    unsigned long bits[CPU_SETSIZE / 32];
} cpu_set_t;

#define CPU_ZERO(set) __builtin_memset((set), 0, sizeof(cpu_set_t))
#define CPU_SET(number, set) ((void)((set)->bits[(number) / 32] |= 1ul << (number) % 32))
#define CPU_CLR(number, set) ((void)((set)->bits[(number) / 32] &= ~(1ul << (number) % 32)))
#define CPU_ISSET(number, set) ((int)((set)->bits[(number) / 32] >> (number) % 32 & 1))
#define CPU_EQUAL(one, other) (!__builtin_memcmp((one), (other), sizeof(cpu_set_t)))
#define CPU_AND(set, one, other) CPU_OP_((set), (one), &, (other))
#define CPU_OR(set, one, other) CPU_OP_((set), (one), |, (other))
#define CPU_XOR(set, one, other) CPU_OP_((set), (one), ^, (other))
#define CPU_OP_(set, one, op, other) \
    ((set)->bits[0] = (one)->bits[0] op (other)->bits[0], (set)->bits[1] = (one)->bits[1] op (other)->bits[1], (void)0)
/* Sets have one size here, whatever was asked for. */
#define CPU_ALLOC_SIZE(count) ((void)(count), sizeof(cpu_set_t))
#define CPU_ALLOC(count) ((void)(count), (cpu_set_t *)calloc(1, sizeof(cpu_set_t)))
#define CPU_FREE(set) free(set)
#define CPU_ZERO_S(size, set) ((void)(size), CPU_ZERO(set))
#define CPU_SET_S(number, size, set) ((void)(size), CPU_SET(number, set))
#define CPU_CLR_S(number, size, set) ((void)(size), CPU_CLR(number, set))
#define CPU_ISSET_S(number, size, set) ((void)(size), CPU_ISSET(number, set))
#define CPU_COUNT_S(size, set) ((void)(size), CPU_COUNT(set))
#define CPU_COUNT(set) (__builtin_popcountl((set)->bits[0]) + __builtin_popcountl((set)->bits[1]))

int sched_yield(void);
int sched_get_priority_max(int);
int sched_get_priority_min(int);
int sched_getparam(pid_t, struct sched_param *);
int sched_setparam(pid_t, const struct sched_param *);
int sched_getscheduler(pid_t);
int sched_setscheduler(pid_t, int, const struct sched_param *);
int sched_rr_get_interval(pid_t, struct timespec *);
int sched_getcpu(void);
int getcpu(unsigned *, unsigned *);
int sched_getaffinity(pid_t, size_t, cpu_set_t *);
int sched_setaffinity(pid_t, size_t, const cpu_set_t *);

#ifdef __cplusplus
}
#endif
#endif
