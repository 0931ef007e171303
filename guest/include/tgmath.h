/* Functions of mathematics by the types of their arguments. */
#ifndef _TGMATH_H
#define _TGMATH_H

#include <complex.h>
#include <math.h>

#ifndef __cplusplus

/* Those of real and complex numbers. */
#define DTHREADS_BOTH(name, x) __builtin_tgmath(name##f, name, name##l, c##name##f, c##name, c##name##l, (x))
#define acos(x) DTHREADS_BOTH(acos, x)
#define asin(x) DTHREADS_BOTH(asin, x)
#define atan(x) DTHREADS_BOTH(atan, x)
#define acosh(x) DTHREADS_BOTH(acosh, x)
#define asinh(x) DTHREADS_BOTH(asinh, x)
#define atanh(x) DTHREADS_BOTH(atanh, x)
#define cos(x) DTHREADS_BOTH(cos, x)
#define sin(x) DTHREADS_BOTH(sin, x)
#define tan(x) DTHREADS_BOTH(tan, x)
#define cosh(x) DTHREADS_BOTH(cosh, x)
#define sinh(x) DTHREADS_BOTH(sinh, x)
#define tanh(x) DTHREADS_BOTH(tanh, x)
#define exp(x) DTHREADS_BOTH(exp, x)
#define log(x) DTHREADS_BOTH(log, x)
#define sqrt(x) DTHREADS_BOTH(sqrt, x)
#define pow(x, y) __builtin_tgmath(powf, pow, powl, cpowf, cpow, cpowl, (x), (y))
#define fabs(x) __builtin_tgmath(fabsf, fabs, fabsl, cabsf, cabs, cabsl, (x))

/* Those of complex numbers. */
#define DTHREADS_COMPLEX(name, x) __builtin_tgmath(name##f, name, name##l, (x))
#define carg(x) DTHREADS_COMPLEX(carg, x)
#define cimag(x) DTHREADS_COMPLEX(cimag, x)
#define conj(x) DTHREADS_COMPLEX(conj, x)
#define cproj(x) DTHREADS_COMPLEX(cproj, x)
#define creal(x) DTHREADS_COMPLEX(creal, x)

/* Those of real numbers. */
#define DTHREADS_REAL(name, ...) __builtin_tgmath(name##f, name, name##l, __VA_ARGS__)
#define atan2(x, y) DTHREADS_REAL(atan2, (x), (y))
#define cbrt(x) DTHREADS_REAL(cbrt, (x))
#define ceil(x) DTHREADS_REAL(ceil, (x))
#define copysign(x, y) DTHREADS_REAL(copysign, (x), (y))
#define erf(x) DTHREADS_REAL(erf, (x))
#define erfc(x) DTHREADS_REAL(erfc, (x))
#define exp2(x) DTHREADS_REAL(exp2, (x))
#define expm1(x) DTHREADS_REAL(expm1, (x))
#define fdim(x, y) DTHREADS_REAL(fdim, (x), (y))
#define floor(x) DTHREADS_REAL(floor, (x))
#define fma(x, y, z) DTHREADS_REAL(fma, (x), (y), (z))
#define fmax(x, y) DTHREADS_REAL(fmax, (x), (y))
#define fmin(x, y) DTHREADS_REAL(fmin, (x), (y))
#define fmod(x, y) DTHREADS_REAL(fmod, (x), (y))
#define frexp(x, y) DTHREADS_REAL(frexp, (x), (y))
#define hypot(x, y) DTHREADS_REAL(hypot, (x), (y))
#define ilogb(x) DTHREADS_REAL(ilogb, (x))
#define ldexp(x, y) DTHREADS_REAL(ldexp, (x), (y))
#define lgamma(x) DTHREADS_REAL(lgamma, (x))
#define llrint(x) DTHREADS_REAL(llrint, (x))
#define llround(x) DTHREADS_REAL(llround, (x))
#define log10(x) DTHREADS_REAL(log10, (x))
#define log1p(x) DTHREADS_REAL(log1p, (x))
#define log2(x) DTHREADS_REAL(log2, (x))
#define logb(x) DTHREADS_REAL(logb, (x))
#define lrint(x) DTHREADS_REAL(lrint, (x))
#define lround(x) DTHREADS_REAL(lround, (x))
#define nearbyint(x) DTHREADS_REAL(nearbyint, (x))
#define nextafter(x, y) DTHREADS_REAL(nextafter, (x), (y))
#define nexttoward(x, y) DTHREADS_REAL(nexttoward, (x), (y))
#define remainder(x, y) DTHREADS_REAL(remainder, (x), (y))
#define remquo(x, y, z) DTHREADS_REAL(remquo, (x), (y), (z))
#define rint(x) DTHREADS_REAL(rint, (x))
#define round(x) DTHREADS_REAL(round, (x))
#define scalbln(x, y) DTHREADS_REAL(scalbln, (x), (y))
#define scalbn(x, y) DTHREADS_REAL(scalbn, (x), (y))
#define tgamma(x) DTHREADS_REAL(tgamma, (x))
#define trunc(x) DTHREADS_REAL(trunc, (x))

#endif
#endif
