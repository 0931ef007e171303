/* Addition, subtraction and multiplication of floats, which the compiler calls. The machine has no instructions for them. Each function
 * has the operands and results that are normal numbers; all others go the general way, by doubles, in which the operations are exact or
 * round to far more bits than a float has. */
#include "soft_float.h"

/* Its reordering takes more registers than there are. */
#pragma GCC optimize("no-schedule-insns")

enum {
    BITS = 23,
    BIAS = 127,
    TOP = 255,
    /* A fraction with its first bit on top of a word has so many bits below it. */
    ROOM = 8
};

#define FIRST (UINT32_C(1) << BITS)
#define NO_NUMBER UINT32_C(0x7fc00000)

INLINE uint32_t bits_of(float value)
{
    uint32_t bits;
    memcpy(&bits, &value, sizeof bits);
    return bits;
}

INLINE float float_of(uint32_t bits)
{
    float value;
    memcpy(&value, &bits, sizeof value);
    return value;
}

/* Rounded by the bits below: the first of them and, in any place, the others. */
INLINE float rounded_by(uint32_t bits, uint32_t below)
{
    bits += below >> 31;
    if (UNLIKELY(below << 1 == 0))
        bits &= ~(below >> 31);
    return float_of(bits);
}

RARE float multiply_any(uint32_t one, uint32_t other)
{
    double product = (double)float_of(one) * (double)float_of(other);
    return product != product ? float_of(NO_NUMBER) : (float)product;
}

float __mulsf3(float one, float other)
{
    uint32_t a = bits_of(one), b = bits_of(other), exponent = a << 1 >> (BITS + 1), second = b << 1 >> (BITS + 1);
    if (UNLIKELY(exponent - 1 >= TOP - 1 || second - 1 >= TOP - 1))
        return multiply_any(a, b);
    exponent += second - BIAS;
    uint64_t product = (uint64_t)(a << ROOM | SIGN) * (b << ROOM | SIGN);
    uint32_t high = (uint32_t)(product >> 32), low = (uint32_t)product;
    if ((int32_t)high >= 0) {
        high <<= 1;
        exponent--;
    }
    if (UNLIKELY(exponent >= TOP - 1))
        return multiply_any(a, b);
    return rounded_by((high >> ROOM) + (exponent << BITS | ((a ^ b) & SIGN)), high << (32 - ROOM) | (low != 0));
}

/* The sum of operands of which the first has the larger magnitude, by doubles: their sum is exact, or the smaller one is less than half
 * of a float's last bit, and the double tells which way to round. float_add.S has the usual cases, and leaves the others to these. */
float dthreads_float_add(uint32_t one, uint32_t other);
float dthreads_float_longer(uint32_t a, uint32_t bits, uint32_t below);
float dthreads_float_shorter(uint32_t a, uint32_t bits, uint32_t below);

float dthreads_float_add(uint32_t one, uint32_t other)
{
    double sum = (double)float_of(one) + (double)float_of(other);
    return sum != sum ? float_of(NO_NUMBER) : (float)sum;
}

/* A sum that is a bit longer than its larger operand `a`: the carry went into the exponent of `bits`. */
float dthreads_float_longer(uint32_t a, uint32_t bits, uint32_t below)
{
    uint32_t head = a >> BITS << BITS, fraction = bits - head + FIRST, raised = head + (fraction >> 1);
    if (UNLIKELY(raised << 1 >= (uint32_t)TOP << (BITS + 1)))
        return float_of((a & SIGN) | (uint32_t)TOP << BITS);
    return rounded_by(raised, fraction << 31 | below >> 1 | (below & 1));
}

/* A difference that is shorter than its larger operand. By more than a bit, it is exact. */
float dthreads_float_shorter(uint32_t a, uint32_t bits, uint32_t below)
{
    uint32_t head = a >> BITS << BITS, exponent = head << 1 >> (BITS + 1), fraction = bits - head + FIRST;
    if ((fraction | below) == 0)
        return 0;
    for (exponent--; fraction < FIRST && exponent > 0; exponent--) {
        fraction = fraction << 1 | below >> 31;
        below <<= 1;
    }
    return rounded_by((exponent << BITS | (a & SIGN)) + fraction, below);
}
