/* Powers of ten with 128 bits, by which most numbers become text and back. One is the product of a power of 10^27, rounded down to so
 * many bits, and of one of 5 that is exact: what is lost is less than two units of the last bit. */
#include "powers.h"

enum {
    STEP = 27,
    LEAST = -13
};

struct coarse {
    struct wide mantissa;
    int32_t exponent;
};

/* 10^(27 k) for k from LEAST on. */
static const struct coarse coarse[] = {
    {{UINT64_C(0x8049a4ac0c5811ae), UINT64_C(0x205b896d777d6278)}, -1293},
    {{UINT64_C(0xcf42894a5dce35ea), UINT64_C(0x52064cac828675b9)}, -1204},
    {{UINT64_C(0xa76c582338ed2621), UINT64_C(0xaf2af2b80af6f24e)}, -1114},
    {{UINT64_C(0x873e4f75e2224e68), UINT64_C(0x5a7744a6e804a291)}, -1024},
    {{UINT64_C(0xda7f5bf590966848), UINT64_C(0xaf39a475506a899e)}, -935},
    {{UINT64_C(0xb080392cc4349dec), UINT64_C(0xbd8d794d96aacfb3)}, -845},
    {{UINT64_C(0x8e938662882af53e), UINT64_C(0x547eb47b7282ee9c)}, -755},
    {{UINT64_C(0xe65829b3046b0afa), UINT64_C(0x0cb4a5a3112a5112)}, -666},
    {{UINT64_C(0xba121a4650e4ddeb), UINT64_C(0x92f34d62616ce413)}, -576},
    {{UINT64_C(0x964e858c91ba2655), UINT64_C(0x3a6a07f8d510f86f)}, -486},
    {{UINT64_C(0xf2d56790ab41c2a2), UINT64_C(0xfae27299423fb9c3)}, -397},
    {{UINT64_C(0xc428d05aa4751e4c), UINT64_C(0xaa97e14c3c26b886)}, -307},
    {{UINT64_C(0x9e74d1b791e07e48), UINT64_C(0x775ea264cf55347d)}, -217},
    {{UINT64_C(0x8000000000000000), UINT64_C(0x0000000000000000)}, -127},
    {{UINT64_C(0xcecb8f27f4200f3a), UINT64_C(0x0000000000000000)}, -38},
    {{UINT64_C(0xa70c3c40a64e6c51), UINT64_C(0x999090b65f67d924)}, 52},
    {{UINT64_C(0x86f0ac99b4e8dafd), UINT64_C(0x69a028bb3ded71a3)}, 142},
    {{UINT64_C(0xda01ee641a708de9), UINT64_C(0xe80e6f4820cc9495)}, 231},
    {{UINT64_C(0xb01ae745b101e9e4), UINT64_C(0x5ec05dcff72e7f8f)}, 321},
    {{UINT64_C(0x8e41ade9fbebc27d), UINT64_C(0x14588f13be847307)}, 411},
    {{UINT64_C(0xe5d3ef282a242e81), UINT64_C(0x8f1668c8a86da5fa)}, 500},
    {{UINT64_C(0xb9a74a0637ce2ee1), UINT64_C(0x6d953e2bd7173692)}, 590},
    {{UINT64_C(0x95f83d0a1fb69cd9), UINT64_C(0x4abdaf101564f98e)}, 680},
    {{UINT64_C(0xf24a01a73cf2dccf), UINT64_C(0xbc633b39673c8cec)}, 769},
    {{UINT64_C(0xc3b8358109e84f07), UINT64_C(0x0a862f80ec4700c8)}, 859},
    {{UINT64_C(0x9e19db92b4e31ba9), UINT64_C(0x6c07a2c26a8346d1)}, 949},
    {{UINT64_C(0xff6d0b3492801150), UINT64_C(0x9798278aea58efff)}, 1038},
};

static const uint64_t fives[STEP] = {
    UINT64_C(1), UINT64_C(5), UINT64_C(25), UINT64_C(125), UINT64_C(625), UINT64_C(3125), UINT64_C(15625), UINT64_C(78125),
    UINT64_C(390625), UINT64_C(1953125), UINT64_C(9765625), UINT64_C(48828125), UINT64_C(244140625), UINT64_C(1220703125),
    UINT64_C(6103515625), UINT64_C(30517578125), UINT64_C(152587890625), UINT64_C(762939453125), UINT64_C(3814697265625),
    UINT64_C(19073486328125), UINT64_C(95367431640625), UINT64_C(476837158203125), UINT64_C(2384185791015625),
    UINT64_C(11920928955078125), UINT64_C(59604644775390625), UINT64_C(298023223876953125), UINT64_C(1490116119384765625),
};

/* The product of two words of 64 bits. */
static struct wide product(uint64_t one, uint64_t other)
{
    uint32_t a = (uint32_t)(one >> 32), b = (uint32_t)one, c = (uint32_t)(other >> 32), d = (uint32_t)other;
    uint64_t low = (uint64_t)b * d, left = (uint64_t)a * d, right = (uint64_t)b * c;
    uint64_t middle = (left & UINT32_MAX) + (right & UINT32_MAX) + (low >> 32);
    return (struct wide){(uint64_t)a * c + (left >> 32) + (right >> 32) + (middle >> 32), middle << 32 | (low & UINT32_MAX)};
}

/* The upper 128 bits of a product of 192, its first bit moved to the top. What is lost is less than a unit. */
static struct wide scaled(struct wide wide, uint64_t factor, int32_t *exponent)
{
    struct wide high = product(wide.high, factor), low = product(wide.low, factor);
    uint64_t middle = high.low + low.high, top = high.high + (middle < low.high);
    *exponent += 64;
    if (top == 0) {
        *exponent -= 64;
        return (struct wide){middle, low.low};
    }
    int32_t zeros = __builtin_clzll(top);
    *exponent -= zeros;
    if (zeros == 0)
        return (struct wide){top, middle};
    return (struct wide){top << zeros | middle >> (64 - zeros), middle << zeros | low.low >> (64 - zeros)};
}

bool power_scale(uint64_t number, int32_t power, struct wide *wide, int32_t *exponent)
{
    int32_t step = power >= 0 ? power / STEP : -((STEP - 1 - power) / STEP), rest = power - step * STEP;
    if (number == 0 || step < LEAST || step >= LEAST + (int32_t)(sizeof coarse / sizeof coarse[0]))
        return false;
    const struct coarse *start = &coarse[step - LEAST];
    int32_t zeros = __builtin_clzll(number);
    *exponent = start->exponent - zeros;
    *wide = scaled(start->mantissa, number << zeros, exponent);
    if (rest > 0) {
        zeros = __builtin_clzll(fives[rest]);
        *exponent += rest - zeros;
        *wide = scaled(*wide, fives[rest] << zeros, exponent);
    }
    return true;
}
