/* Exact decimal numbers, in which printf and scanf turn floating point to text and back. */
#ifndef DECIMAL_H
#define DECIMAL_H

#include <stdbool.h>
#include <stdint.h>
#include "../names.h"

enum {
    /* Decimal digits of a limb. */
    LIMB_DIGITS = 9,
    /* Limbs for the digits of a number of 64 bits, wherever the point is. */
    DIGIT_LIMBS = 4,
    /* By so many bits a number can be doubled or halved at a time. */
    MOST_DOUBLED = 29,
    MOST_HALVED = 9,
    /* Bits and exponents of the types: a value is m * 2^e, m below 2^bits. */
    FLOAT_BITS = 24,
    FLOAT_LEAST = -149,
    DOUBLE_BITS = 53,
    DOUBLE_LEAST = -1074,
    LONG_BITS = 113,
    LONG_LEAST = -16494
};

/* Limbs of nine digits, the highest first: those from `head` up to `tail` are in use, those from `point` on are the fraction. */
struct decimal {
    uint32_t *limbs;
    int32_t head;
    int32_t tail;
    int32_t point;
    /* It has the digits that are wanted: rounding changes nothing. */
    bool is_rounded;
};

/* An unsigned number of 128 bits. */
struct wide {
    uint64_t high;
    uint64_t low;
};

/* A finite number of a floating-point type, taken apart: mantissa * 2^exponent. */
struct real {
    struct wide mantissa;
    int32_t exponent;
    int32_t bits;
    int32_t least;
    bool is_negative;
    bool is_infinite;
    bool is_nan;
};

struct real real_of_double(double value);
struct real real_of_long(long double value);

uint32_t wide_length(struct wide number);
struct wide wide_up(struct wide number, uint32_t bits);
struct wide wide_down(struct wide number, uint32_t bits);

/* Times 2^bits and divided by 2^bits. The limbs must have room. */
void decimal_double(struct decimal *number, uint32_t bits);
void decimal_halve(struct decimal *number, uint32_t bits);

/* How many limbs a finite number of a floating-point type needs, and the number in them. */
int32_t decimal_limbs(const struct real *real);
void decimal_set(struct decimal *number, const struct real *real, uint32_t *limbs);
/* The same, rounded to so many places after the point, or to so many digits, in DIGIT_LIMBS limbs: false if that takes more than what
 * is known of powers of ten, and for all numbers but doubles. */
bool decimal_set_places(struct decimal *number, const struct real *real, int32_t places, uint32_t *limbs);
bool decimal_set_digits(struct decimal *number, const struct real *real, int32_t digits, uint32_t *limbs);

/* Rounds to so many places after the point, to the even one of two that are equally near; fewer than 0 are places before it. */
void decimal_round(struct decimal *number, int32_t places);
/* The power of ten of the first digit, 0 for the number 0. */
int32_t decimal_power(const struct decimal *number);
/* The digit of a power of ten. */
char decimal_digit(const struct decimal *number, int32_t power);
/* The power of ten of the last digit that isn't 0. */
int32_t decimal_lowest(const struct decimal *number);

#endif
