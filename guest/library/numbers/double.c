/* Addition, subtraction, multiplication and division of doubles, which the compiler calls. The machine has no instructions for them.
 * Each function has the operands and results that are normal numbers; all others go the general way. */
#include "soft_float.h"

/* Its reordering takes more registers than there are. */
#pragma GCC optimize("no-schedule-insns")

enum {
    BITS = 52,
    BIAS = 1023,
    TOP = 2047,
    /* Bits of the upper word's fraction, and by how many more a fraction has its first bit on top of two words. */
    HIGH_BITS = 20,
    ROOM = 11
};

#define FIRST (UINT32_C(1) << HIGH_BITS)
#define NO_NUMBER UINT64_C(0x7ff8000000000000)
#define INFINITE ((uint64_t)TOP << BITS)

INLINE uint64_t bits_of(double value)
{
    uint64_t bits;
    memcpy(&bits, &value, sizeof bits);
    return bits;
}

INLINE double double_of(uint64_t bits)
{
    double value;
    memcpy(&value, &bits, sizeof value);
    return value;
}

INLINE uint64_t pair(uint32_t high, uint32_t low)
{
    return (uint64_t)high << 32 | low;
}

INLINE uint32_t upper(uint64_t bits)
{
    return (uint32_t)(bits >> 32);
}

/* The exponent of an upper word, its sign left out. */
INLINE uint32_t exponent_of(uint32_t high)
{
    return high << 1 >> (HIGH_BITS + 1);
}

/* A normal number has neither exponent 0 nor TOP. */
INLINE bool is_normal(uint32_t exponent)
{
    return exponent - 1 < TOP - 1;
}

/* The general way. */

/* A finite number that isn't 0: fraction * 2^(exponent - BIAS - 63), with the fraction's highest bit set. */
struct number {
    uint64_t fraction;
    int32_t exponent;
};

static struct number number_of(uint64_t bits)
{
    int32_t exponent = (int32_t)exponent_of(upper(bits));
    uint64_t fraction = bits << ROOM;
    if (exponent > 0)
        return (struct number){fraction | UINT64_C(1) << 63, exponent};
    int32_t zeros = __builtin_clzll(fraction << 1);
    return (struct number){fraction << zeros << 1, -zeros};
}

static uint64_t shifted_down(uint64_t fraction, int32_t count)
{
    if (count == 0)
        return fraction;
    if (count >= 64)
        return fraction != 0;
    return fraction >> count | (fraction << (64 - count) != 0);
}

/* The nearest double; the fraction's lowest bit stands for all that lies below it. */
static uint64_t rounded(uint32_t sign, struct number number)
{
    uint64_t fraction = number.fraction, head = (uint64_t)sign << 32;
    if (number.exponent >= TOP)
        return head | INFINITE;
    if (number.exponent <= 0)
        fraction = shifted_down(fraction, 1 - number.exponent);
    else
        head += (uint64_t)(number.exponent - 1) << BITS;
    uint32_t rest = (uint32_t)fraction & ((1 << ROOM) - 1), half = 1 << (ROOM - 1);
    fraction >>= ROOM;
    return head + fraction + (rest > half || (rest == half && (fraction & 1)));
}

static bool is_nan(uint64_t bits)
{
    return bits << 1 > INFINITE << 1;
}

static bool is_infinite(uint64_t bits)
{
    return bits << 1 == INFINITE << 1;
}

static bool is_zero(uint64_t bits)
{
    return bits << 1 == 0;
}

/* Multiplication. */

static struct number product(struct number one, struct number other)
{
    uint64_t low = (uint64_t)(uint32_t)one.fraction * (uint32_t)other.fraction;
    uint64_t left = (uint64_t)upper(one.fraction) * (uint32_t)other.fraction;
    uint64_t right = (uint64_t)(uint32_t)one.fraction * upper(other.fraction);
    uint64_t middle = (left & UINT32_MAX) + (right & UINT32_MAX) + (low >> 32);
    uint64_t high = (uint64_t)upper(one.fraction) * upper(other.fraction) + (left >> 32) + (right >> 32) + (middle >> 32);
    uint64_t below = middle << 32 | (low & UINT32_MAX);
    int32_t exponent = one.exponent + other.exponent - BIAS + 1;
    if (high >> 63 == 0) {
        high = high << 1 | below >> 63;
        below <<= 1;
        exponent--;
    }
    return (struct number){high | (below != 0), exponent};
}

RARE double multiply_any(uint64_t one, uint64_t other)
{
    uint32_t sign = (upper(one) ^ upper(other)) & SIGN;
    if (is_nan(one) || is_nan(other) || (is_infinite(one) && is_zero(other)) || (is_zero(one) && is_infinite(other)))
        return double_of(NO_NUMBER);
    if (is_infinite(one) || is_infinite(other))
        return double_of(INFINITE | (uint64_t)sign << 32);
    if (is_zero(one) || is_zero(other))
        return double_of((uint64_t)sign << 32);
    return double_of(rounded(sign, product(number_of(one), number_of(other))));
}

/* Rounds a fraction to which exponent and sign have been put. */
INLINE double rounded_by(uint32_t high, uint32_t low, uint32_t below, uint32_t sticky)
{
    uint32_t kept = low + (below >> 31);
    high += kept < low;
    if (UNLIKELY((below << 1 | sticky) == 0))
        kept &= ~(below >> 31);
    return double_of(pair(high, kept));
}

/* Rounds a fraction of 53 bits by the word below it, of which `sticky` is the rest, and puts exponent and sign to it. The exponent is
 * one less, since the fraction's first bit adds 1 to it. */
INLINE double packed(uint32_t sign, uint32_t exponent, uint32_t high, uint32_t low, uint32_t below, uint32_t sticky)
{
    return rounded_by((high + (exponent << HIGH_BITS)) | sign, low, below, sticky);
}

double __muldf3(double one, double other)
{
    uint64_t left = bits_of(one), right = bits_of(other);
    uint32_t a = upper(left), b = upper(right), exponent = exponent_of(a), second = exponent_of(b);
    if (UNLIKELY(!is_normal(exponent) || !is_normal(second)))
        return multiply_any(left, right);
    exponent += second - BIAS;
    uint32_t ah = a << ROOM | (uint32_t)left >> (32 - ROOM) | SIGN, al = (uint32_t)left << ROOM;
    uint32_t bh = (b << (ROOM + 1) >> (ROOM + 1)) | FIRST, bl = (uint32_t)right;
    /* The second fraction's upper word has 21 bits: a sum of its product's upper word and two carries is a word. */
    uint64_t low = (uint64_t)al * bl, inner = (uint64_t)al * bh, outer = (uint64_t)ah * bl;
    uint32_t below = upper(low) + (uint32_t)inner, carried = upper(inner) + (below < (uint32_t)inner);
    below += (uint32_t)outer;
    carried += below < (uint32_t)outer;
    uint64_t whole = (uint64_t)ah * bh + upper(outer) + carried;
    uint32_t high = upper(whole), rest = (uint32_t)whole;
    if (high < FIRST) {
        high = high << 1 | rest >> 31;
        rest = rest << 1 | below >> 31;
        below <<= 1;
        exponent--;
    }
    if (UNLIKELY(exponent >= TOP - 1))
        return multiply_any(left, right);
    return packed((a ^ b) & SIGN, exponent, high, rest, below, (uint32_t)low);
}

/* Division. */

RARE double divide_any(uint64_t one, uint64_t other)
{
    uint32_t sign = (upper(one) ^ upper(other)) & SIGN;
    if (is_nan(one) || is_nan(other) || (is_infinite(one) && is_infinite(other)) || (is_zero(one) && is_zero(other)))
        return double_of(NO_NUMBER);
    if (is_infinite(one) || is_zero(other))
        return double_of(INFINITE | (uint64_t)sign << 32);
    if (is_zero(one) || is_infinite(other))
        return double_of((uint64_t)sign << 32);
    struct number top = number_of(one), under = number_of(other);
    struct number quotient = {0, top.exponent - under.exponent + BIAS};
    if (top.fraction < under.fraction)
        quotient.exponent--;
    else
        top.fraction -= under.fraction, quotient.fraction = 1;
    uint64_t rest = top.fraction;
    for (int32_t bits = quotient.fraction ? 63 : 64; bits > 0; bits--) {
        bool is_over = rest >> 63 || rest << 1 >= under.fraction;
        quotient.fraction = quotient.fraction << 1 | is_over;
        rest = (rest << 1) - (is_over ? under.fraction : 0);
    }
    quotient.fraction |= rest != 0;
    return double_of(rounded(sign, quotient));
}

/* Not more than 2^84 / divisor, of a divisor of 53 bits, and less by one part in 2^28 at most. */
INLINE uint32_t reciprocal(uint32_t high, uint32_t low)
{
    uint32_t first = high << ROOM | low >> (32 - ROOM);
    uint32_t guess = UINT32_MAX / ((first >> 16) + 1) << 15;
    uint32_t error = upper((uint64_t)guess * first);
    return upper((uint64_t)guess * (-UINT32_C(2) - error)) << 1;
}

/* Some 28 bits of rest / divisor, not too much, and by a few too little. */
INLINE uint32_t digit(uint64_t rest, uint32_t inverse)
{
    return upper((uint64_t)(uint32_t)(rest >> 24) * inverse);
}

double __divdf3(double one, double other)
{
    uint64_t left = bits_of(one), right = bits_of(other);
    uint32_t a = upper(left), b = upper(right), exponent = exponent_of(a), second = exponent_of(b);
    if (UNLIKELY(!is_normal(exponent) || !is_normal(second)))
        return divide_any(left, right);
    exponent += BIAS - 1 - second;
    uint32_t bh = (b << (ROOM + 1) >> (ROOM + 1)) | FIRST, inverse = reciprocal(bh, (uint32_t)right);
    uint64_t rest = pair((a << (ROOM + 1) >> (ROOM + 1)) | FIRST, (uint32_t)left), divisor = pair(bh, (uint32_t)right);
    uint32_t digit_one = digit(rest, inverse);
    rest = (rest << 28) - divisor * digit_one;
    uint32_t digit_two = digit(rest, inverse);
    rest = (rest << 28) - divisor * digit_two;
    for (; rest >= divisor; digit_two++)
        rest -= divisor;
    /* 56 or 57 bits. */
    uint64_t quotient = ((uint64_t)digit_one << 28) + digit_two;
    uint32_t shift = 4;
    if (upper(quotient) < FIRST << 4) {
        shift = 3;
        exponent--;
    }
    if (UNLIKELY(exponent >= TOP - 1))
        return divide_any(left, right);
    uint32_t high = upper(quotient) >> shift, low = (uint32_t)(quotient >> shift), below = (uint32_t)quotient << (32 - shift);
    return packed((a ^ b) & SIGN, exponent, high, low, below, upper(rest) | (uint32_t)rest);
}

/* Addition. */

RARE double add_any(uint64_t one, uint64_t other)
{
    if (is_nan(one) || is_nan(other) || (is_infinite(one) && is_infinite(other) && one != other))
        return double_of(NO_NUMBER);
    if (is_infinite(one) || is_zero(other))
        return double_of(is_zero(one) ? one & other : one);
    if (is_infinite(other) || is_zero(one))
        return double_of(other);
    if (one << 1 < other << 1) {
        uint64_t held = one;
        one = other;
        other = held;
    }
    uint32_t sign = upper(one) & SIGN;
    struct number large = number_of(one), small = number_of(other);
    uint64_t aligned = shifted_down(small.fraction >> 1, large.exponent - small.exponent);
    if (large.exponent - small.exponent == 0)
        aligned |= small.fraction & 1;
    uint64_t fraction = upper(one ^ other) & SIGN ? (large.fraction >> 1) - aligned : (large.fraction >> 1) + aligned;
    if (fraction == 0)
        return 0;
    int32_t zeros = __builtin_clzll(fraction);
    return double_of(rounded(sign, (struct number){fraction << zeros, large.exponent + 1 - zeros}));
}

/* A fraction moved down by less than 32 bits, and what of it lies below the last bit then. */
struct moved {
    uint32_t high, low, below;
};

INLINE struct moved moved_down(uint32_t b, uint32_t bl, uint32_t distance)
{
    uint32_t high = (b << (ROOM + 1) >> (ROOM + 1)) | FIRST, left = ~distance % 32, right = distance % 32;
    return (struct moved){high >> right, bl >> right | high << 1 << left, bl << 1 << left};
}

/* The sum of operands of which the first has the larger magnitude. double_add.S has its usual cases, and leaves the others to these. */
double dthreads_double_add(uint64_t one, uint64_t other);
double dthreads_double_longer(uint32_t a, uint32_t high, uint32_t low, uint32_t below);
double dthreads_double_shorter(uint64_t one, uint64_t other, uint32_t high, uint32_t low);

/* A sum that is a bit longer than its larger operand, of which `a` is the upper word: the carry went into the exponent. */
double dthreads_double_longer(uint32_t a, uint32_t high, uint32_t low, uint32_t below)
{
    uint32_t fraction = high - (a >> HIGH_BITS << HIGH_BITS) + FIRST;
    uint32_t raised = (a >> HIGH_BITS << HIGH_BITS) + (fraction >> 1);
    if (UNLIKELY((raised << 1) >= (uint32_t)TOP << (HIGH_BITS + 1)))
        return double_of(INFINITE | (uint64_t)(a & SIGN) << 32);
    return rounded_by(raised, fraction << 31 | low >> 1, low << 31 | below >> 1, below << 31);
}

/* The zeros before the first bit of a word that isn't 0, without a call. */
INLINE int32_t zeros_of(uint32_t word)
{
    int32_t zeros = 0;
#pragma GCC unroll 5
    for (int32_t step = 16; step > 0; step /= 2)
        if (word >> (32 - step) == 0) {
            zeros += step;
            word <<= step;
        }
    return zeros;
}

/* A difference that lost two bits or more, one of which its words were moved up for. */
double dthreads_double_shorter(uint64_t one, uint64_t other, uint32_t high, uint32_t low)
{
    if ((high | low) == 0)
        return 0;
    int32_t zeros = (high ? zeros_of(high) : 32 + zeros_of(low)) - ROOM;
    int32_t exponent = (int32_t)exponent_of(upper(one)) - 1 - zeros;
    if (UNLIKELY(exponent <= 0))
        return add_any(one, other);
    return double_of((pair(high, low) << zeros) + pair((upper(one) & SIGN) | (uint32_t)(exponent - 1) << HIGH_BITS, 0));
}

/* A difference that is shorter than its larger operand. */
static double shorter(uint64_t one, uint64_t other, uint32_t high, uint32_t low, uint32_t below)
{
    uint32_t a = upper(one), head = a >> HIGH_BITS << HIGH_BITS, fraction = high - head + FIRST;
    fraction = fraction << 1 | low >> 31;
    low = low << 1 | below >> 31;
    if (fraction < FIRST)
        return dthreads_double_shorter(one, other, fraction, low);
    if (exponent_of(a) == 1)
        return add_any(one, other);
    return rounded_by(head + fraction - (FIRST << 1), low, below << 1, 0);
}

/* A sum or difference of fractions in place: it keeps exponent and sign in the upper word, which are those of most results. */
INLINE double added(uint64_t one, uint64_t other, struct moved small)
{
    uint32_t a = upper(one), high, low, below = small.below;
    if ((int32_t)(a ^ upper(other)) >= 0) {
        low = (uint32_t)one + small.low;
        high = a + small.high + (low < small.low);
        return UNLIKELY((high ^ a) >> HIGH_BITS != 0) ? dthreads_double_longer(a, high, low, below) : rounded_by(high, low, below, 0);
    }
    uint32_t borrow = below != 0, difference = (uint32_t)one - small.low;
    low = difference - borrow;
    high = a - small.high - ((uint32_t)one < small.low) - (difference < borrow);
    below = -below;
    return UNLIKELY((high ^ a) >> HIGH_BITS != 0) ? shorter(one, other, high, low, below) : rounded_by(high, low, below, 0);
}

/* Of operands whose exponents lie 32 or more apart; the last bit of `below` stands for those that were lost. */
static double add_far(uint64_t one, uint64_t other, uint32_t distance)
{
    uint32_t b = upper(other), bl = (uint32_t)other, high = (b << (ROOM + 1) >> (ROOM + 1)) | FIRST;
    if (distance > BITS + 2)
        return double_of(one);
    uint32_t right = distance % 32, left = ~distance % 32;
    struct moved small = {0, high >> right, high << 1 << left | bl >> right | (bl << 1 << left != 0)};
    return added(one, other, small);
}

double dthreads_double_add(uint64_t one, uint64_t other)
{
    uint32_t b = upper(other), exponent = exponent_of(upper(one)), second = exponent_of(b), distance = exponent - second;
    if (exponent == TOP || (second == 0 && distance <= BITS + 2))
        return add_any(one, other);
    return distance > 31 ? add_far(one, other, distance) : added(one, other, moved_down(b, (uint32_t)other, distance));
}
