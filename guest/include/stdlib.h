/* The C library's page, and what it lacks. */
#ifndef DTHREADS_STDLIB_H
#define DTHREADS_STDLIB_H

#include_next <stdlib.h>

#ifdef __cplusplus
extern "C" {
#endif

int getloadavg(double *, int);
int clearenv(void);
int posix_memalign(void **, size_t, size_t);
const char *getprogname(void);

#ifdef _GNU_SOURCE
/* Random numbers of states that the program keeps. */
struct random_data {
    __INT32_TYPE__ *fptr, *rptr, *state;
    int rand_type, rand_deg, rand_sep;
    __INT32_TYPE__ *end_ptr;
};
struct drand48_data {
    unsigned short __x[3], __old_x[3], __c, __init;
    __extension__ unsigned long long __a;
};

int random_r(struct random_data *__restrict, __INT32_TYPE__ *__restrict);
int srandom_r(unsigned, struct random_data *);
int initstate_r(unsigned, char *__restrict, size_t, struct random_data *__restrict);
int setstate_r(char *__restrict, struct random_data *__restrict);
int drand48_r(struct drand48_data *__restrict, double *__restrict);
int erand48_r(unsigned short[3], struct drand48_data *, double *);
int lrand48_r(struct drand48_data *__restrict, long *__restrict);
int nrand48_r(unsigned short[3], struct drand48_data *, long *);
int mrand48_r(struct drand48_data *__restrict, long *__restrict);
int jrand48_r(unsigned short[3], struct drand48_data *, long *);
int srand48_r(long, struct drand48_data *);
int seed48_r(unsigned short[3], struct drand48_data *);
int lcong48_r(unsigned short[7], struct drand48_data *);
#endif

#ifdef __cplusplus
}
#endif
#endif
