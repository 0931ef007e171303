/* Numbers of floating point as bits: what double.c and float.c share. Results are IEEE 754's, to the nearest number and of two that
 * are equally near to the even one; one that is no number is the positive quiet one without a payload. */
#ifndef SOFT_FLOAT_H
#define SOFT_FLOAT_H

#include <stdbool.h>
#include <stdint.h>
#include <string.h>

#define SIGN UINT32_C(0x80000000)
#define INLINE static inline __attribute__((always_inline))
/* What most operands don't come to. */
#define RARE static __attribute__((noinline, cold))
#define UNLIKELY(condition) __builtin_expect(condition, 0)

#endif
