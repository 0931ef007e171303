/* Products of numbers and powers of ten, to 128 bits. */
#ifndef POWERS_H
#define POWERS_H

#include "decimal.h"

enum {
    /* By so many units of the last bit the product is too small at most. */
    POWER_ERROR = 8
};

/* number * 10^power = wide * 2^exponent, the first bit of `wide` being set; false if the number is 0 or the power out of range. */
bool power_scale(uint64_t number, int32_t power, struct wide *wide, int32_t *exponent);

#endif
