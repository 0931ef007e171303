/* Text to floating point: the nearest number, the even one of two that are equally near, however many digits there are. */
#include <ctype.h>
#include <errno.h>
#include <locale.h>
#include <stdlib.h>
#include <string.h>
#include <strings.h>
#include <wchar.h>
#include "decimal.h"
#include "powers.h"

/* A type that a number is made for. */
struct shape {
    int32_t bits;
    int32_t least;
    /* The exponent of the greatest numbers. */
    int32_t greatest;
    /* Digits that can matter; of those behind them it counts alone whether they are zeros. */
    int32_t digits;
    /* Powers of ten beyond which a number is infinite or zero. */
    int32_t huge;
    int32_t tiny;
};

static const struct shape of_float = {FLOAT_BITS, FLOAT_LEAST, 104, 128, 40, -47};
static const struct shape of_double = {DOUBLE_BITS, DOUBLE_LEAST, 971, 800, 310, -325};
static const struct shape of_long = {LONG_BITS, LONG_LEAST, 16271, 11600, 4934, -4967};

enum {
    /* Exponents in text stay below. */
    GREATEST_POWER = 1000000,
    /* The limbs whose number fits in 119 bits. */
    WHOLE_LIMBS = 4,
    WHOLE_BITS = 117
};

/* The number that text spells. */
struct result {
    struct wide mantissa;
    int32_t exponent;
    bool is_negative;
    bool is_infinite;
    bool is_nan;
    bool is_out_of_range;
};

/* Mantissa * 2^exponent, and a bit of it that isn't zero below if `has_more`: rounded to what the type has. */
static void round_to(struct result *result, const struct shape *shape, struct wide mantissa, int32_t exponent, bool has_more)
{
    int32_t length = (int32_t)wide_length(mantissa), shift = length - shape->bits;
    if (shift < shape->least - exponent)
        shift = shape->least - exponent;
    if (shift > 0) {
        struct wide kept = wide_down(mantissa, (uint32_t)shift);
        bool is_half = shift <= 128 && (wide_down(mantissa, (uint32_t)shift - 1).low & 1) != 0;
        struct wide low = shift <= 1 ? (struct wide){0, 0} : shift > 128 ? mantissa : wide_up(mantissa, 128 - (uint32_t)shift + 1);
        bool is_more = has_more || low.high || low.low;
        has_more = is_half || is_more;
        if (is_half && (is_more || (kept.low & 1)) && ++kept.low == 0)
            kept.high++;
        mantissa = kept;
        exponent += shift;
    }
    if ((int32_t)wide_length(mantissa) > shape->bits) {
        mantissa = wide_down(mantissa, 1);
        exponent++;
    }
    int32_t room = shape->bits - (int32_t)wide_length(mantissa);
    if (room > exponent - shape->least)
        room = exponent - shape->least;
    if (room > 0 && (mantissa.high || mantissa.low)) {
        mantissa = wide_up(mantissa, (uint32_t)room);
        exponent -= room;
    }
    result->mantissa = mantissa;
    result->exponent = exponent;
    result->is_infinite = exponent > shape->greatest && (mantissa.high || mantissa.low);
    result->is_out_of_range = result->is_infinite || (has_more && (int32_t)wide_length(mantissa) < shape->bits);
}

/* An exponent after its letter; `text` stays if none follows. */
static int32_t read_power(const char **text)
{
    const char *place = *text + 1;
    bool is_negative = *place == '-';
    int32_t power = 0;
    if (*place == '-' || *place == '+')
        place++;
    if (!isdigit((unsigned char)*place))
        return 0;
    for (; isdigit((unsigned char)*place); place++)
        if (power < GREATEST_POWER)
            power = power * 10 + (*place - '0');
    *text = place;
    return is_negative ? -power : power;
}

static int hexadecimal_value(char digit)
{
    return digit <= '9' ? digit - '0' : (digit | 0x20) - 'a' + 10;
}

/* Digits behind 0x; NULL if there are none. */
static const char *read_hexadecimal(const char *text, const struct shape *shape, struct result *result)
{
    struct wide mantissa = {0, 0};
    bool has_more = false, has_point = false, has_digits = false;
    int32_t exponent = 0;
    for (; isxdigit((unsigned char)*text) || (*text == '.' && !has_point); text++) {
        if (*text == '.') {
            has_point = true;
            continue;
        }
        has_digits = true;
        int value = hexadecimal_value(*text);
        if (mantissa.high >> 56 == 0) {
            mantissa = wide_up(mantissa, 4);
            mantissa.low |= (uint64_t)value;
        } else {
            has_more = has_more || value != 0;
            exponent += 4;
        }
        exponent -= has_point ? 4 : 0;
    }
    if (!has_digits)
        return NULL;
    if (*text == 'p' || *text == 'P')
        exponent += read_power(&text);
    round_to(result, shape, mantissa, exponent, has_more);
    return text;
}

/* The digits of a decimal number: where those stand that matter, and the power of ten that the first one is below. */
struct spelled {
    const char *first;
    int32_t digits;
    int32_t power;
    bool has_more;
};

/* NULL if there are no digits. */
static const char *read_spelled(const char *text, const struct shape *shape, struct spelled *spelled)
{
    const char *place = text, *last = NULL;
    bool has_point = false, has_digits = false;
    int32_t power = 0;
    *spelled = (struct spelled){0};
    for (; isdigit((unsigned char)*place) || (*place == '.' && !has_point); place++) {
        if (*place == '.') {
            has_point = true;
            continue;
        }
        has_digits = true;
        if (*place != '0' && !spelled->first)
            spelled->first = place;
        if (*place != '0')
            last = place;
        power += spelled->first ? !has_point : -has_point;
    }
    if (!has_digits)
        return NULL;
    for (const char *each = spelled->first; each && each <= last; each++) {
        if (*each == '.')
            continue;
        if (spelled->digits < shape->digits)
            spelled->digits++;
        else
            spelled->has_more = spelled->has_more || *each != '0';
    }
    if (*place == 'e' || *place == 'E')
        power += read_power(&place);
    spelled->power = power;
    return place;
}

/* The digits as limbs around the point. */
static void set_limbs(struct decimal *number, const struct spelled *spelled)
{
    static const uint32_t tens[LIMB_DIGITS] = {100000000, 10000000, 1000000, 100000, 10000, 1000, 100, 10, 1};
    const char *digit = spelled->first;
    int32_t whole = spelled->power > 0 ? (spelled->power + LIMB_DIGITS - 1) / LIMB_DIGITS : 0;
    int32_t place = number->point * LIMB_DIGITS - spelled->power;
    number->head = number->point - whole;
    number->tail = number->point;
    for (int32_t i = number->head; i <= (place + spelled->digits) / LIMB_DIGITS || i < number->point; i++)
        number->limbs[i] = 0;
    for (int32_t i = 0; i < spelled->digits; digit++) {
        if (*digit == '.')
            continue;
        number->limbs[place / LIMB_DIGITS] += (uint32_t)(*digit - '0') * tens[place % LIMB_DIGITS];
        place++;
        i++;
    }
    int32_t tail = (place + LIMB_DIGITS - 1) / LIMB_DIGITS;
    if (tail > number->tail)
        number->tail = tail;
}

static struct wide whole_of(const struct decimal *number)
{
    struct wide whole = {0, 0};
    for (int32_t i = number->head; i < number->point; i++) {
        uint64_t low = (whole.low & UINT32_MAX) * 1000000000 + number->limbs[i];
        uint64_t middle = (whole.low >> 32) * 1000000000 + (low >> 32);
        whole.high = whole.high * 1000000000 + (middle >> 32);
        whole.low = middle << 32 | (low & UINT32_MAX);
    }
    return whole;
}

static void convert(struct result *result, const struct shape *shape, struct decimal *number, bool has_more)
{
    int32_t exponent = 0;
    for (; number->point - number->head > WHOLE_LIMBS; exponent += MOST_HALVED)
        decimal_halve(number, MOST_HALVED);
    struct wide whole = whole_of(number);
    while ((int32_t)wide_length(whole) <= shape->bits && exponent > shape->least - 2 && number->tail > number->point) {
        int32_t bits = WHOLE_BITS - (int32_t)wide_length(whole);
        if (bits > MOST_DOUBLED)
            bits = MOST_DOUBLED;
        if (bits > exponent - (shape->least - 2))
            bits = exponent - (shape->least - 2);
        decimal_double(number, (uint32_t)bits);
        exponent -= bits;
        whole = whole_of(number);
    }
    round_to(result, shape, whole, exponent, has_more || number->tail > number->point);
}

/* Digits that a number of 64 bits has room for. */
#define MOST_DIGITS 19

static uint64_t whole_digits(const struct spelled *spelled)
{
    uint64_t whole = 0;
    uint32_t part = 0, unit = 1;
    const char *digit = spelled->first;
    for (int32_t i = 0; i < spelled->digits; digit++) {
        if (*digit == '.')
            continue;
        part = part * 10 + (uint32_t)(*digit - '0');
        unit *= 10;
        i++;
        if (unit == 1000000000 || i == spelled->digits) {
            whole = whole * unit + part;
            part = 0;
            unit = 1;
        }
    }
    return whole;
}

/* The nearest number of few digits and a normal size, by what is known of powers of ten: false if that doesn't tell. */
static bool convert_short(struct result *result, const struct shape *shape, const struct spelled *spelled)
{
    struct wide wide;
    int32_t exponent;
    if (spelled->digits > MOST_DIGITS || spelled->has_more || shape->bits > DOUBLE_BITS)
        return false;
    if (!power_scale(whole_digits(spelled), spelled->power - spelled->digits, &wide, &exponent))
        return false;
    /* Below the type's bits come `rest` and then all the lower ones. */
    int32_t shift = 64 - shape->bits;
    uint64_t rest = wide.high << shape->bits | wide.low >> shift, half = UINT64_C(1) << 63;
    exponent += 128 - shape->bits;
    if (exponent <= shape->least || exponent >= shape->greatest || (rest <= half && half - rest <= POWER_ERROR))
        return false;
    uint64_t mantissa = (wide.high >> shift) + (rest > half);
    if (mantissa >> shape->bits) {
        mantissa >>= 1;
        exponent++;
    }
    result->mantissa = (struct wide){0, mantissa};
    result->exponent = exponent;
    return true;
}

static const char *read_decimal(const char *text, const struct shape *shape, struct result *result)
{
    struct spelled spelled;
    const char *end = read_spelled(text, shape, &spelled);
    if (!end || spelled.digits == 0 || convert_short(result, shape, &spelled))
        return end;
    if (spelled.power > shape->huge) {
        result->is_infinite = result->is_out_of_range = true;
        return end;
    }
    if (spelled.power < shape->tiny) {
        result->is_out_of_range = true;
        return end;
    }
    int32_t whole = spelled.power > 0 ? spelled.power / LIMB_DIGITS + 2 : 0;
    int32_t below = spelled.digits > spelled.power ? (spelled.digits - spelled.power) / LIMB_DIGITS + 2 : 0;
    int32_t halved = spelled.power > WHOLE_LIMBS * LIMB_DIGITS ? spelled.power * 10 / 3 / MOST_HALVED + 2 : 0;
    int32_t point = whole + WHOLE_LIMBS + 2;
    uint32_t limbs[point + below + halved + 2];
    struct decimal number = {.limbs = limbs, .point = point};
    set_limbs(&number, &spelled);
    convert(result, shape, &number, spelled.has_more);
    return end;
}

/* "inf", "infinity", "nan" or "nan(letters)"; NULL if it is none of these. */
static const char *read_name(const char *text, struct result *result)
{
    if (strncasecmp(text, "inf", 3) == 0) {
        result->is_infinite = true;
        return text + (strncasecmp(text, "infinity", 8) == 0 ? 8 : 3);
    }
    if (strncasecmp(text, "nan", 3) != 0)
        return NULL;
    const char *end = text + 4;
    result->is_nan = true;
    while (text[3] == '(' && (isalnum((unsigned char)*end) || *end == '_'))
        end++;
    return text[3] == '(' && *end == ')' ? end + 1 : text + 3;
}

static struct result read_real(const char *text, char **end, const struct shape *shape)
{
    struct result result = {.exponent = shape->least};
    const char *place = text, *after = NULL;
    while (isspace((unsigned char)*place))
        place++;
    result.is_negative = *place == '-';
    if (*place == '-' || *place == '+')
        place++;
    if (place[0] == '0' && (place[1] | 0x20) == 'x')
        after = read_hexadecimal(place + 2, shape, &result);
    if (!after)
        after = read_decimal(place, shape, &result);
    if (!after)
        after = read_name(place, &result);
    if (!after)
        result.is_negative = false;
    if (end)
        *end = (char *)(after ? after : text);
    if (result.is_out_of_range)
        errno = ERANGE;
    return result;
}

/* The power in the type's bits, and the fraction. */
static uint32_t power_of(const struct result *result, const struct shape *shape)
{
    if (result->is_infinite || result->is_nan)
        return (uint32_t)(shape->greatest - shape->least) + 2;
    return (int32_t)wide_length(result->mantissa) < shape->bits ? 0 : (uint32_t)(result->exponent - shape->least) + 1;
}

static struct wide fraction_of(const struct result *result, const struct shape *shape)
{
    struct wide fraction = result->mantissa;
    if (result->is_nan)
        return wide_up((struct wide){0, 1}, (uint32_t)shape->bits - 2);
    if (result->is_infinite)
        return (struct wide){0, 0};
    if (shape->bits > 64)
        fraction.high &= (UINT64_C(1) << (shape->bits - 65)) - 1;
    else
        fraction.low &= (UINT64_C(1) << (shape->bits - 1)) - 1;
    return fraction;
}

double strtod(const char *restrict text, char **restrict end)
{
    struct result result = read_real(text, end, &of_double);
    uint64_t bits = fraction_of(&result, &of_double).low | (uint64_t)power_of(&result, &of_double) << 52 | (uint64_t)result.is_negative << 63;
    double value;
    memcpy(&value, &bits, sizeof value);
    return value;
}

float strtof(const char *restrict text, char **restrict end)
{
    struct result result = read_real(text, end, &of_float);
    uint32_t bits = (uint32_t)fraction_of(&result, &of_float).low | power_of(&result, &of_float) << 23 | (uint32_t)result.is_negative << 31;
    float value;
    memcpy(&value, &bits, sizeof value);
    return value;
}

long double strtold(const char *restrict text, char **restrict end)
{
    struct result result = read_real(text, end, &of_long);
    struct wide fraction = fraction_of(&result, &of_long);
    uint64_t bits[2] = {fraction.low, fraction.high | (uint64_t)power_of(&result, &of_long) << 48 | (uint64_t)result.is_negative << 63};
    long double value;
    memcpy(&value, bits, sizeof value);
    return value;
}

double strtod_l(const char *restrict text, char **restrict end, locale_t locale)
{
    (void)locale;
    return strtod(text, end);
}

float strtof_l(const char *restrict text, char **restrict end, locale_t locale)
{
    (void)locale;
    return strtof(text, end);
}

long double strtold_l(const char *restrict text, char **restrict end, locale_t locale)
{
    (void)locale;
    return strtold(text, end);
}

double atof(const char *text)
{
    return strtod(text, NULL);
}
