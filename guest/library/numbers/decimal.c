/* Exact decimal numbers. A limb of nine digits can be halved nine times before a digit of the next one is needed. */
#include <string.h>
#include "decimal.h"
#include "powers.h"

#define LIMB UINT32_C(1000000000)

static const uint32_t tens[LIMB_DIGITS] = {1, 10, 100, 1000, 10000, 100000, 1000000, 10000000, 100000000};

/* Numbers of 128 bits. */

static uint32_t length_of(uint64_t number)
{
    return number ? 64 - (uint32_t)__builtin_clzll(number) : 0;
}

uint32_t wide_length(struct wide number)
{
    return number.high ? 64 + length_of(number.high) : length_of(number.low);
}

struct wide wide_up(struct wide number, uint32_t bits)
{
    if (bits >= 64)
        return (struct wide){number.low << (bits - 64), 0};
    if (bits == 0)
        return number;
    return (struct wide){number.high << bits | number.low >> (64 - bits), number.low << bits};
}

struct wide wide_down(struct wide number, uint32_t bits)
{
    if (bits >= 128)
        return (struct wide){0, 0};
    if (bits >= 64)
        return (struct wide){0, number.high >> (bits - 64)};
    if (bits == 0)
        return number;
    return (struct wide){number.high >> bits, number.high << (64 - bits) | number.low >> bits};
}

/* Divides by a limb; the remainder is what is returned. */
static uint32_t wide_divide(struct wide *number, uint32_t divisor)
{
    uint32_t parts[4] = {(uint32_t)(number->high >> 32), (uint32_t)number->high, (uint32_t)(number->low >> 32), (uint32_t)number->low};
    uint64_t rest = 0;
    for (int i = 0; i < 4; i++) {
        rest = rest << 32 | parts[i];
        parts[i] = (uint32_t)(rest / divisor);
        rest %= divisor;
    }
    number->high = (uint64_t)parts[0] << 32 | parts[1];
    number->low = (uint64_t)parts[2] << 32 | parts[3];
    return (uint32_t)rest;
}

/* Taking apart. */

static struct real real_of(struct wide fraction, uint32_t power, int32_t bits, int32_t least, uint32_t greatest, bool is_negative)
{
    struct real real = {.mantissa = fraction, .exponent = least, .bits = bits, .least = least, .is_negative = is_negative};
    bool is_zero = fraction.high == 0 && fraction.low == 0;
    if (power == greatest) {
        real.is_infinite = is_zero;
        real.is_nan = !is_zero;
    } else if (power > 0) {
        struct wide one = wide_up((struct wide){0, 1}, (uint32_t)bits - 1);
        real.mantissa = (struct wide){fraction.high | one.high, fraction.low | one.low};
        real.exponent = least + (int32_t)power - 1;
    }
    return real;
}

struct real real_of_double(double value)
{
    uint64_t bits;
    memcpy(&bits, &value, sizeof bits);
    struct wide fraction = {0, bits & ((UINT64_C(1) << 52) - 1)};
    return real_of(fraction, bits >> 52 & 0x7ff, DOUBLE_BITS, DOUBLE_LEAST, 0x7ff, bits >> 63);
}

struct real real_of_long(long double value)
{
    uint64_t bits[2];
    memcpy(bits, &value, sizeof bits);
    struct wide fraction = {bits[1] & ((UINT64_C(1) << 48) - 1), bits[0]};
    return real_of(fraction, bits[1] >> 48 & 0x7fff, LONG_BITS, LONG_LEAST, 0x7fff, bits[1] >> 63);
}

/* Limbs. */

/* A number of 0 has no limbs. */
static void drop_zeros(struct decimal *number)
{
    while (number->tail > number->point && number->limbs[number->tail - 1] == 0)
        number->tail--;
    while (number->head < number->tail && number->limbs[number->head] == 0)
        number->head++;
    if (number->head >= number->tail)
        number->head = number->tail = number->point;
}

void decimal_double(struct decimal *number, uint32_t bits)
{
    uint32_t carry = 0;
    for (int32_t i = number->tail - 1; i >= number->head; i--) {
        uint64_t limb = ((uint64_t)number->limbs[i] << bits) + carry;
        carry = (uint32_t)(limb / LIMB);
        number->limbs[i] = (uint32_t)(limb - (uint64_t)carry * LIMB);
    }
    if (carry)
        number->limbs[--number->head] = carry;
    drop_zeros(number);
}

void decimal_halve(struct decimal *number, uint32_t bits)
{
    uint32_t carry = 0, mask = (UINT32_C(1) << bits) - 1, unit = LIMB >> bits;
    for (int32_t i = number->head; i < number->tail; i++) {
        uint32_t limb = number->limbs[i];
        number->limbs[i] = (limb >> bits) + carry;
        carry = (limb & mask) * unit;
    }
    if (carry)
        number->limbs[number->tail++] = carry;
    drop_zeros(number);
}

/* Without the mantissa's zeros at its end. */
static struct real reduced(const struct real *real)
{
    struct real result = *real;
    struct wide mantissa = real->mantissa;
    if (mantissa.high == 0 && mantissa.low == 0)
        return result;
    uint32_t zeros = (uint32_t)(mantissa.low ? __builtin_ctzll(mantissa.low) : 64 + __builtin_ctzll(mantissa.high));
    result.mantissa = wide_down(mantissa, zeros);
    result.exponent += (int32_t)zeros;
    return result;
}

/* 2^10 is more than 10^3, and 2^93 less than 10^28. */
static int32_t limbs_of_bits(int32_t bits)
{
    return bits * 28 / 93 / LIMB_DIGITS + 2;
}

static int32_t whole_limbs(const struct real *real)
{
    return limbs_of_bits((int32_t)wide_length(real->mantissa) + (real->exponent > 0 ? real->exponent : 0)) + 2;
}

int32_t decimal_limbs(const struct real *real)
{
    struct real small = reduced(real);
    return whole_limbs(&small) + (small.exponent < 0 ? -small.exponent / LIMB_DIGITS + 2 : 2);
}

/* Division that rounds down. */
static int32_t limb_of(int32_t places)
{
    return places >= 0 ? places / LIMB_DIGITS : -((LIMB_DIGITS - 1 - places) / LIMB_DIGITS);
}

/* The nearest whole number to mantissa * 10^power, unless it is too large, or it can't be told which one is the nearest. */
static bool nearest(const struct real *real, int32_t power, uint64_t *whole)
{
    struct wide wide;
    int32_t exponent;
    if (real->bits != DOUBLE_BITS || !power_scale(real->mantissa.low, power, &wide, &exponent))
        return false;
    /* Of the 128 bits, those from this one on are the whole number. */
    int32_t unit = -(exponent + real->exponent);
    if (unit < 68 || unit > 127)
        return false;
    uint64_t rest = wide.high << (128 - unit) | wide.low >> (unit - 64), half = UINT64_C(1) << 63;
    if (rest <= half && half - rest <= POWER_ERROR)
        return false;
    *whole = (wide.high >> (unit - 64)) + (rest > half);
    return true;
}

/* Limbs of whole * 10^-places. */
static void set_whole(struct decimal *number, uint64_t whole, int32_t places, uint32_t *limbs)
{
    int32_t limb = -limb_of(-places);
    struct wide wide = {0, whole};
    uint64_t low = (whole & UINT32_MAX) * tens[limb * LIMB_DIGITS - places];
    uint64_t high = (whole >> 32) * tens[limb * LIMB_DIGITS - places] + (low >> 32);
    wide = (struct wide){high >> 32, high << 32 | (low & UINT32_MAX)};
    int32_t point = DIGIT_LIMBS - limb, head = DIGIT_LIMBS;
    for (; wide.high || wide.low; head--)
        limbs[head - 1] = wide_divide(&wide, LIMB);
    *number = (struct decimal){.limbs = limbs, .head = head, .tail = DIGIT_LIMBS, .point = point, .is_rounded = true};
    if (whole == 0)
        number->head = number->tail = point;
}

bool decimal_set_places(struct decimal *number, const struct real *real, int32_t places, uint32_t *limbs)
{
    uint64_t whole;
    bool is_done = places >= 0 && nearest(real, places, &whole);
    if (is_done)
        set_whole(number, whole, places, limbs);
    return is_done;
}

/* Less than 10^18 is exact in this many digits. */
#define MOST_DIGITS 18
static const uint64_t ten_powers[MOST_DIGITS + 1] = {
    1, 10, 100, 1000, 10000, 100000, 1000000, 10000000, 100000000, 1000000000, 10000000000, 100000000000, 1000000000000,
    10000000000000, 100000000000000, 1000000000000000, 10000000000000000, 100000000000000000, 1000000000000000000,
};

bool decimal_set_digits(struct decimal *number, const struct real *real, int32_t digits, uint32_t *limbs)
{
    uint64_t whole;
    if (digits < 1 || digits >= MOST_DIGITS || real->mantissa.low == 0)
        return false;
    /* The power of ten of the first digit, or one less. */
    int32_t power = (int32_t)(((int64_t)(real->exponent + (int32_t)wide_length(real->mantissa) - 1) * 1292913986) >> 32);
    int32_t places = digits - 1 - power;
    if (!nearest(real, places, &whole))
        return false;
    if (whole >= ten_powers[digits] && !nearest(real, --places, &whole))
        return false;
    set_whole(number, whole, places, limbs);
    return true;
}

void decimal_set(struct decimal *number, const struct real *real, uint32_t *limbs)
{
    struct real small = reduced(real);
    int32_t point = whole_limbs(&small);
    *number = (struct decimal){.limbs = limbs, .head = point, .tail = point, .point = point};
    while (small.mantissa.high || small.mantissa.low)
        limbs[--number->head] = wide_divide(&small.mantissa, LIMB);
    for (; small.exponent > 0; small.exponent -= small.exponent < MOST_DOUBLED ? small.exponent : MOST_DOUBLED)
        decimal_double(number, (uint32_t)(small.exponent < MOST_DOUBLED ? small.exponent : MOST_DOUBLED));
    for (; small.exponent < 0; small.exponent += small.exponent > -MOST_HALVED ? -small.exponent : MOST_HALVED)
        decimal_halve(number, (uint32_t)(small.exponent > -MOST_HALVED ? -small.exponent : MOST_HALVED));
}

static bool is_zero_from(const struct decimal *number, int32_t place)
{
    for (int32_t i = place; i < number->tail; i++)
        if (number->limbs[i] != 0)
            return false;
    return true;
}

/* Whether what lies below a unit of limb `place` is more than half of it, or half and the digit before is odd. */
static bool rounds_up(const struct decimal *number, int32_t place, uint32_t unit, uint32_t rest)
{
    uint32_t half = unit / 2;
    int32_t below = place + 1;
    if (unit == 1) {
        half = LIMB / 2;
        rest = below < number->tail ? number->limbs[below] : 0;
        below++;
    }
    if (rest != half)
        return rest > half;
    return !is_zero_from(number, below) || number->limbs[place] / unit % 2 == 1;
}

static void add_at(struct decimal *number, int32_t place, uint32_t unit)
{
    number->limbs[place] += unit;
    while (number->limbs[place] >= LIMB) {
        number->limbs[place--] -= LIMB;
        if (place < number->head)
            number->limbs[--number->head] = 0;
        number->limbs[place]++;
    }
}

void decimal_round(struct decimal *number, int32_t places)
{
    if (number->is_rounded)
        return;
    int32_t limb = limb_of(places - 1);
    int32_t place = number->point + limb;
    uint32_t unit = tens[LIMB_DIGITS - 1 - (places - 1 - limb * LIMB_DIGITS)];
    if (place >= number->tail)
        return;
    if (place < number->head - 1) {
        number->head = number->tail = number->point;
        return;
    }
    if (place < number->head)
        number->limbs[--number->head] = 0;
    uint32_t rest = number->limbs[place] % unit;
    bool is_up = rounds_up(number, place, unit, rest);
    number->limbs[place] -= rest;
    for (int32_t i = place + 1; i < number->point; i++)
        number->limbs[i] = 0;
    number->tail = place + 1 > number->point ? place + 1 : number->point;
    if (is_up)
        add_at(number, place, unit);
    drop_zeros(number);
}

static uint32_t digits_of(uint32_t limb)
{
    uint32_t digits = 1;
    while (digits < LIMB_DIGITS && limb >= tens[digits])
        digits++;
    return digits;
}

int32_t decimal_power(const struct decimal *number)
{
    int32_t first = number->head;
    while (first < number->tail && number->limbs[first] == 0)
        first++;
    if (first >= number->tail)
        return 0;
    return (number->point - 1 - first) * LIMB_DIGITS + (int32_t)digits_of(number->limbs[first]) - 1;
}

char decimal_digit(const struct decimal *number, int32_t power)
{
    int32_t limb = limb_of(power);
    int32_t place = number->point - 1 - limb;
    if (place < number->head || place >= number->tail)
        return '0';
    return (char)('0' + number->limbs[place] / tens[power - limb * LIMB_DIGITS] % 10);
}

int32_t decimal_lowest(const struct decimal *number)
{
    int32_t last = number->tail - 1;
    while (last >= number->head && number->limbs[last] == 0)
        last--;
    if (last < number->head)
        return 0;
    int32_t power = (number->point - 1 - last) * LIMB_DIGITS;
    for (uint32_t limb = number->limbs[last]; limb % 10 == 0; limb /= 10)
        power++;
    return power;
}
