/* printf and its kin: text goes to the stream character by character. Floating point is exact, whatever precision is asked for. */
#include <errno.h>
#include <stdarg.h>
#include <stddef.h>
#include <stdio.h>
#include <string.h>
#include <wchar.h>
#include "../numbers/decimal.h"
#include "wide.h"

enum {
    /* Bytes of the longest integer, in octal digits. */
    LONGEST_INTEGER = 24,
    /* A precision that isn't given. */
    NONE = -1,
    ORDINARY_PRECISION = 6,
    /* Arguments that a format with numbered ones can name. */
    MOST_NUMBERED = 32
};

enum size {
    OF_INT,
    OF_CHAR,
    OF_SHORT,
    OF_LONG,
    OF_LONG_LONG,
    OF_LONG_DOUBLE
};

/* One conversion of a format. */
struct directive {
    bool is_left;
    bool has_plus;
    bool has_space;
    bool is_alternate;
    bool has_zeros;
    int width;
    int precision;
    enum size size;
    char kind;
};

/* An argument as it came. */
union value {
    uint64_t number;
    double real;
    long double long_real;
    void *pointer;
};

struct output {
    FILE *stream;
    /* What was written so far. */
    int count;
    bool has_failed;
    /* The text goes on as wide characters: its bytes are those of UTF-8, and characters are counted. */
    bool is_wide;
};

static void put(struct output *output, char character)
{
    if (!output->has_failed && output->stream->put(character, output->stream) < 0)
        output->has_failed = true;
    if (!output->is_wide || (character & 0xc0) != 0x80)
        output->count++;
}

static void put_text(struct output *output, const char *text, int length)
{
    for (int i = 0; i < length; i++)
        put(output, text[i]);
}

static void fill(struct output *output, char character, int count)
{
    while (count-- > 0)
        put(output, character);
}

/* What stands before a number: blanks, its sign or its base, zeros up to the width. */
static void begin_field(struct output *output, const struct directive *directive, const char *prefix, int length)
{
    int all = (int)strlen(prefix) + length;
    if (!directive->is_left && !directive->has_zeros)
        fill(output, ' ', directive->width - all);
    put_text(output, prefix, (int)strlen(prefix));
    if (!directive->is_left && directive->has_zeros)
        fill(output, '0', directive->width - all);
}

static void end_field(struct output *output, const struct directive *directive, int start)
{
    if (directive->is_left)
        fill(output, ' ', directive->width - (output->count - start));
}

static const char *sign_of(const struct directive *directive, bool is_negative)
{
    return is_negative ? "-" : directive->has_plus ? "+" : directive->has_space ? " " : "";
}

/* Integers. */

/* Writes digits up to `end`, and returns where they begin. */
static char *write_digits(char *end, uint64_t number, uint32_t base, bool is_upper)
{
    const char *digits = is_upper ? "0123456789ABCDEF" : "0123456789abcdef";
    while (number > UINT32_MAX) {
        *--end = digits[number % base];
        number /= base;
    }
    for (uint32_t rest = (uint32_t)number; rest != 0; rest /= base)
        *--end = digits[rest % base];
    return end;
}

static void put_digits(struct output *output, struct directive directive, const char *prefix, uint64_t number, uint32_t base)
{
    char room[LONGEST_INTEGER];
    char *end = room + sizeof room;
    char *start = write_digits(end, number, base, directive.kind == 'X');
    int length = (int)(end - start), least = directive.precision == NONE ? 1 : directive.precision;
    if (base == 8 && directive.is_alternate && least <= length)
        least = length + 1;
    int zeros = least > length ? least - length : 0, from = output->count;
    if (directive.precision != NONE)
        directive.has_zeros = false;
    begin_field(output, &directive, prefix, zeros + length);
    fill(output, '0', zeros);
    put_text(output, start, length);
    end_field(output, &directive, from);
}

static void put_signed(struct output *output, const struct directive *directive, int64_t number)
{
    uint64_t size = number < 0 ? -(uint64_t)number : (uint64_t)number;
    put_digits(output, *directive, sign_of(directive, number < 0), size, 10);
}

static void put_unsigned(struct output *output, const struct directive *directive, uint64_t number)
{
    const char *prefix = "";
    if (directive->is_alternate && number != 0 && (directive->kind == 'x' || directive->kind == 'X'))
        prefix = directive->kind == 'x' ? "0x" : "0X";
    put_digits(output, *directive, prefix, number, directive->kind == 'u' ? 10 : directive->kind == 'o' ? 8 : 16);
}

/* Text. */

static void put_field(struct output *output, const struct directive *directive, const char *text, int length)
{
    int start = output->count;
    if (!directive->is_left)
        fill(output, ' ', directive->width - length);
    put_text(output, text, length);
    end_field(output, directive, start);
}

static void put_string(struct output *output, const struct directive *directive, const char *text)
{
    if (!text)
        text = directive->precision == NONE || directive->precision >= 6 ? "(null)" : "";
    size_t most = directive->precision == NONE ? (size_t)-1 : (size_t)directive->precision;
    put_field(output, directive, text, (int)strnlen(text, most));
}

/* The bytes of a wide character, and how many places it takes; fewer than 0 if it has none. */
static int wide_bytes(const struct output *output, wchar_t character, char *bytes, int *length)
{
    mbstate_t state = {0};
    if (output->is_wide) {
        *length = utf8_put(bytes, character);
        return 1;
    }
    return *length = (int)wcrtomb(bytes, character, &state);
}

/* The places of wide text: of as many whole characters as `most` places have room for. */
static int wide_places(const struct output *output, const wchar_t *text, int most)
{
    char bytes[8];
    int places = 0, length;
    for (; places < most && *text; text++) {
        int more = wide_bytes(output, *text, bytes, &length);
        if (more < 0)
            return -1;
        if (more > most - places)
            break;
        places += more;
    }
    return places;
}

static void put_wide(struct output *output, const struct directive *directive, const wchar_t *text)
{
    char bytes[8];
    int start = output->count, length;
    if (!text)
        text = L"(null)";
    int places = wide_places(output, text, directive->precision == NONE ? INT32_MAX : directive->precision);
    if (places < 0) {
        output->has_failed = true;
        return;
    }
    if (!directive->is_left)
        fill(output, ' ', directive->width - places);
    for (int done = 0; done < places; text++) {
        done += wide_bytes(output, *text, bytes, &length);
        put_text(output, bytes, length);
    }
    end_field(output, directive, start);
}

static void put_character(struct output *output, const struct directive *directive, wint_t character)
{
    char bytes[8] = {(char)character};
    int length = 1, places = 1, start = output->count;
    if (directive->size == OF_LONG)
        places = wide_bytes(output, (wchar_t)character, bytes, &length);
    if (places < 0) {
        output->has_failed = true;
        return;
    }
    if (!directive->is_left)
        fill(output, ' ', directive->width - places);
    put_text(output, bytes, length);
    end_field(output, directive, start);
}

/* Floating point. */

static bool is_upper(const struct directive *directive)
{
    return directive->kind < 'a';
}

static void put_exponent(struct output *output, char mark, int32_t power, int least)
{
    char room[LONGEST_INTEGER];
    char *end = room + sizeof room;
    char *start = write_digits(end, (uint64_t)(power < 0 ? -power : power), 10, false);
    put(output, mark);
    put(output, power < 0 ? '-' : '+');
    fill(output, '0', least - (int)(end - start));
    put_text(output, start, (int)(end - start));
}

static int exponent_length(int32_t power, int least)
{
    int digits = 0;
    for (uint32_t rest = (uint32_t)(power < 0 ? -power : power); rest != 0; rest /= 10)
        digits++;
    return 2 + (digits < least ? least : digits);
}

static void put_powers(struct output *output, const struct decimal *number, int32_t first, int32_t last)
{
    for (int32_t power = first; power >= last; power--)
        put(output, decimal_digit(number, power));
}

/* Digits from a power of ten on, a point, and so many places, with an exponent if there is one. */
static void put_decimal(struct output *output, const struct directive *directive, const char *prefix, const struct decimal *number,
                        int32_t first, int32_t unit, int places, bool has_exponent)
{
    bool has_point = places > 0 || directive->is_alternate;
    int length = (int)(first - unit) + 1 + has_point + places + (has_exponent ? exponent_length(unit, 2) : 0);
    begin_field(output, directive, prefix, length);
    put_powers(output, number, first, unit);
    if (has_point)
        put(output, '.');
    put_powers(output, number, unit - 1, unit - places);
    if (has_exponent)
        put_exponent(output, is_upper(directive) ? 'E' : 'e', unit, 2);
}

static void put_fixed(struct output *output, const struct directive *directive, const char *prefix, struct decimal *number)
{
    int places = directive->precision == NONE ? ORDINARY_PRECISION : directive->precision;
    decimal_round(number, places);
    int32_t power = decimal_power(number);
    put_decimal(output, directive, prefix, number, power > 0 ? power : 0, 0, places, false);
}

static void put_scientific(struct output *output, const struct directive *directive, const char *prefix, struct decimal *number)
{
    int places = directive->precision == NONE ? ORDINARY_PRECISION : directive->precision;
    decimal_round(number, places - decimal_power(number));
    int32_t power = decimal_power(number);
    put_decimal(output, directive, prefix, number, power, power, places, true);
}

static void put_shorter(struct output *output, const struct directive *directive, const char *prefix, struct decimal *number)
{
    int digits = directive->precision == NONE ? ORDINARY_PRECISION : directive->precision == 0 ? 1 : directive->precision;
    decimal_round(number, digits - 1 - decimal_power(number));
    int32_t power = decimal_power(number), lowest = decimal_lowest(number);
    bool is_scientific = power < -4 || power >= digits;
    int32_t unit = is_scientific ? power : 0;
    int places = digits - 1 - (int)(power - unit);
    if (!directive->is_alternate)
        places = lowest < unit ? (int)(unit - lowest) : 0;
    put_decimal(output, directive, prefix, number, power > unit ? power : unit, unit, places, is_scientific);
}

/* Hexadecimal: the first digit is the bit above the others. */

/* Rounds to so many of `all` digits behind the first, to the even one of two that are equally near. */
static struct wide round_digits(struct wide mantissa, int all, int places)
{
    uint32_t cut = (uint32_t)(all - places) * 4;
    struct wide kept = wide_down(mantissa, cut), back = wide_up(kept, cut), half = wide_up((struct wide){0, 1}, cut - 1);
    struct wide rest = {mantissa.high - back.high - (mantissa.low < back.low), mantissa.low - back.low};
    bool is_half = rest.high == half.high && rest.low == half.low;
    bool is_more = rest.high > half.high || (rest.high == half.high && rest.low > half.low);
    if ((is_more || (is_half && (kept.low & 1))) && ++kept.low == 0)
        kept.high++;
    return wide_up(kept, cut);
}

static uint32_t hexadecimal_digit(struct wide mantissa, int place)
{
    return (uint32_t)wide_down(mantissa, (uint32_t)place * 4).low & 15;
}

static void put_hexadecimal(struct output *output, const struct directive *directive, const char *sign, const struct real *real)
{
    const char *digits = is_upper(directive) ? "0123456789ABCDEF" : "0123456789abcdef";
    int all = (real->bits + 2) / 4, places = directive->precision;
    struct wide mantissa = wide_up(real->mantissa, (uint32_t)(all * 4 - (real->bits - 1)));
    int32_t power = mantissa.high == 0 && mantissa.low == 0 ? 0 : real->exponent + real->bits - 1;
    char prefix[4];
    if (places == NONE)
        for (places = all; places > 0 && hexadecimal_digit(mantissa, all - places) == 0; places--)
            ;
    if (places < all)
        mantissa = round_digits(mantissa, all, places);
    bool has_point = places > 0 || directive->is_alternate;
    strcat(strcpy(prefix, sign), is_upper(directive) ? "0X" : "0x");
    begin_field(output, directive, prefix, 1 + has_point + places + exponent_length(power, 1));
    put(output, digits[hexadecimal_digit(mantissa, all)]);
    if (has_point)
        put(output, '.');
    for (int i = 1; i <= places; i++)
        put(output, i <= all ? digits[hexadecimal_digit(mantissa, all - i)] : '0');
    put_exponent(output, is_upper(directive) ? 'P' : 'p', power, 1);
}

static void put_number(struct output *output, const struct directive *directive, const char *prefix, struct decimal *number)
{
    switch (directive->kind | 0x20) {
    case 'f':
        put_fixed(output, directive, prefix, number);
        break;
    case 'e':
        put_scientific(output, directive, prefix, number);
        break;
    default:
        put_shorter(output, directive, prefix, number);
    }
}

/* The digits that a directive asks for, if they are found without all the others. */
static bool set_short(struct decimal *number, const struct directive *directive, const struct real *real, uint32_t *limbs)
{
    int precision = directive->precision == NONE ? ORDINARY_PRECISION : directive->precision;
    switch (directive->kind | 0x20) {
    case 'f':
        return decimal_set_places(number, real, precision, limbs);
    case 'e':
        return decimal_set_digits(number, real, precision + 1, limbs);
    default:
        return decimal_set_digits(number, real, precision == 0 ? 1 : precision, limbs);
    }
}

static __attribute__((noinline)) void put_exact(struct output *output, const struct directive *directive, const char *prefix, const struct real *real)
{
    uint32_t limbs[decimal_limbs(real)];
    struct decimal number;
    decimal_set(&number, real, limbs);
    put_number(output, directive, prefix, &number);
}

static void put_finite(struct output *output, const struct directive *directive, const char *prefix, const struct real *real)
{
    uint32_t limbs[DIGIT_LIMBS];
    struct decimal number;
    if (set_short(&number, directive, real, limbs))
        put_number(output, directive, prefix, &number);
    else
        put_exact(output, directive, prefix, real);
}

static void put_real(struct output *output, struct directive directive, const struct real *real)
{
    const char *prefix = sign_of(&directive, real->is_negative);
    int start = output->count;
    if (real->is_nan || real->is_infinite) {
        directive.has_zeros = false;
        begin_field(output, &directive, prefix, 3);
        put_text(output, real->is_nan ? (is_upper(&directive) ? "NAN" : "nan") : is_upper(&directive) ? "INF" : "inf", 3);
    } else if ((directive.kind | 0x20) == 'a') {
        put_hexadecimal(output, &directive, prefix, real);
    } else {
        put_finite(output, &directive, prefix, real);
    }
    end_field(output, &directive, start);
}

/* Formats. */

/* A number in the format; it stays below INT32_MAX. */
static const char *read_number(const char *format, int *number)
{
    for (*number = 0; *format >= '0' && *format <= '9'; format++)
        *number = *number > INT32_MAX / 10 - 1 ? INT32_MAX - 9 : *number * 10 + (*format - '0');
    return format;
}

static const char *read_flags(const char *format, struct directive *directive)
{
    for (;; format++) {
        switch (*format) {
        case '-':
            directive->is_left = true;
            break;
        case '+':
            directive->has_plus = true;
            break;
        case ' ':
            directive->has_space = true;
            break;
        case '#':
            directive->is_alternate = true;
            break;
        case '0':
            directive->has_zeros = true;
            break;
        case '\'':
        case 'I':
            break;
        default:
            return format;
        }
    }
}

static enum size size_of_bytes(size_t bytes)
{
    return bytes > sizeof(int) ? OF_LONG_LONG : OF_INT;
}

static const char *read_size(const char *format, enum size *size)
{
    switch (*format) {
    case 'h':
        *size = format[1] == 'h' ? OF_CHAR : OF_SHORT;
        return format + (*size == OF_CHAR ? 2 : 1);
    case 'l':
        *size = format[1] == 'l' ? OF_LONG_LONG : OF_LONG;
        return format + (*size == OF_LONG_LONG ? 2 : 1);
    case 'q':
        *size = OF_LONG_LONG;
        return format + 1;
    case 'L':
        *size = OF_LONG_DOUBLE;
        return format + 1;
    case 'j':
        *size = OF_LONG_LONG;
        return format + 1;
    case 'z':
    case 'Z':
        *size = size_of_bytes(sizeof(size_t));
        return format + 1;
    case 't':
        *size = size_of_bytes(sizeof(ptrdiff_t));
        return format + 1;
    default:
        *size = OF_INT;
        return format;
    }
}

/* The arguments: one after the other, or by their numbers if the format has them. */
struct arguments {
    va_list *list;
    union value *numbered;
};

/* What an argument is fetched as. */
enum fetched {
    NOTHING,
    AN_INT,
    A_LONG_LONG,
    A_DOUBLE,
    A_LONG_DOUBLE,
    A_POINTER
};

static enum fetched fetched_by(const struct directive *directive)
{
    if (directive->kind && strchr("eEfFgGaA", directive->kind))
        return directive->size == OF_LONG_DOUBLE ? A_LONG_DOUBLE : A_DOUBLE;
    if (directive->kind && strchr("spnS", directive->kind))
        return A_POINTER;
    if (directive->kind && strchr("diouxXcC", directive->kind))
        return directive->size == OF_LONG_LONG || directive->size == OF_LONG_DOUBLE ? A_LONG_LONG : AN_INT;
    return NOTHING;
}

static union value fetch(va_list *list, enum fetched what)
{
    union value value = {0};
    switch (what) {
    case AN_INT:
        value.number = (uint64_t)va_arg(*list, int);
        break;
    case A_LONG_LONG:
        value.number = va_arg(*list, uint64_t);
        break;
    case A_DOUBLE:
        value.real = va_arg(*list, double);
        break;
    case A_LONG_DOUBLE:
        value.long_real = va_arg(*list, long double);
        break;
    case A_POINTER:
        value.pointer = va_arg(*list, void *);
        break;
    default:
        break;
    }
    return value;
}

static union value next_value(const struct arguments *arguments, int number, enum fetched what)
{
    if (number > 0 && number <= MOST_NUMBERED && arguments->numbered)
        return arguments->numbered[number - 1];
    return fetch(arguments->list, what);
}

/* `*` or `*4$` or digits, for a width or a precision. */
static const char *read_measure(const char *format, const struct arguments *arguments, int *measure)
{
    int number = 0;
    if (*format != '*')
        return read_number(format, measure);
    const char *after = read_number(format + 1, &number);
    if (*after == '$')
        format = after;
    else
        number = 0;
    *measure = (int)next_value(arguments, number, AN_INT).number;
    return format + 1;
}

/* Reads what follows the percent sign; `number` is that of a numbered argument, or 0. */
static const char *read_directive(const char *format, const struct arguments *arguments, struct directive *directive, int *number)
{
    const char *after = read_number(format, number);
    *directive = (struct directive){.precision = NONE};
    if (*after == '$')
        format = after + 1;
    else
        *number = 0;
    format = read_measure(read_flags(format, directive), arguments, &directive->width);
    if (directive->width < 0) {
        directive->is_left = true;
        directive->width = -directive->width;
    }
    if (*format == '.') {
        format = read_measure(format + 1, arguments, &directive->precision);
        if (directive->precision < 0)
            directive->precision = NONE;
    }
    format = read_size(format, &directive->size);
    directive->kind = *format;
    return *format ? format + 1 : format;
}

static int64_t as_signed(uint64_t number, enum size size)
{
    switch (size) {
    case OF_CHAR:
        return (signed char)number;
    case OF_SHORT:
        return (short)number;
    case OF_LONG_LONG:
    case OF_LONG_DOUBLE:
        return (int64_t)number;
    default:
        return (int32_t)number;
    }
}

static uint64_t as_unsigned(uint64_t number, enum size size)
{
    switch (size) {
    case OF_CHAR:
        return (unsigned char)number;
    case OF_SHORT:
        return (unsigned short)number;
    case OF_LONG_LONG:
    case OF_LONG_DOUBLE:
        return number;
    default:
        return (uint32_t)number;
    }
}

static void store_count(void *place, enum size size, int count)
{
    switch (size) {
    case OF_CHAR:
        *(signed char *)place = (signed char)count;
        break;
    case OF_SHORT:
        *(short *)place = (short)count;
        break;
    case OF_LONG_LONG:
        *(long long *)place = count;
        break;
    case OF_LONG:
        *(long *)place = count;
        break;
    default:
        *(int *)place = count;
    }
}

static void put_pointer(struct output *output, struct directive directive, uintptr_t pointer)
{
    if (pointer == 0) {
        put_field(output, &directive, "(nil)", 5);
        return;
    }
    directive.kind = 'x';
    directive.is_alternate = true;
    put_unsigned(output, &directive, pointer);
}

/* One conversion; false for one that is none. */
static bool convert(struct output *output, struct directive *directive, union value value)
{
    struct real real;
    switch (directive->kind) {
    case 'd':
    case 'i':
        put_signed(output, directive, as_signed(value.number, directive->size));
        return true;
    case 'u':
    case 'o':
    case 'x':
    case 'X':
        put_unsigned(output, directive, as_unsigned(value.number, directive->size));
        return true;
    case 'C':
        directive->size = OF_LONG;
        /* fall through */
    case 'c':
        put_character(output, directive, (wint_t)value.number);
        return true;
    case 'S':
        put_wide(output, directive, value.pointer);
        return true;
    case 's':
        if (directive->size == OF_LONG)
            put_wide(output, directive, value.pointer);
        else
            put_string(output, directive, value.pointer);
        return true;
    case 'p':
        put_pointer(output, *directive, (uintptr_t)value.pointer);
        return true;
    case 'n':
        store_count(value.pointer, directive->size, output->count);
        return true;
    case 'e':
    case 'E':
    case 'f':
    case 'F':
    case 'g':
    case 'G':
    case 'a':
    case 'A':
        real = directive->size == OF_LONG_DOUBLE ? real_of_long(value.long_real) : real_of_double(value.real);
        put_real(output, *directive, &real);
        return true;
    default:
        return false;
    }
}

/* Fetches all numbered arguments, in their order; false if the format has none. */
static bool fetch_numbered(const char *format, va_list *list, union value *values)
{
    enum fetched kinds[MOST_NUMBERED] = {NOTHING};
    static union value none[MOST_NUMBERED];
    const struct arguments nothing = {list, none};
    int most = 0;
    while ((format = strchr(format, '%')) != NULL) {
        struct directive directive;
        int number;
        const char *star = format + 1;
        format = read_directive(format + 1, &nothing, &directive, &number);
        if (directive.kind == '%')
            continue;
        if (number == 0 || number > MOST_NUMBERED)
            return false;
        kinds[number - 1] = fetched_by(&directive);
        most = number > most ? number : most;
        for (; star < format; star++) {
            if (*star != '*')
                continue;
            read_number(star + 1, &number);
            if (number == 0 || number > MOST_NUMBERED)
                return false;
            kinds[number - 1] = AN_INT;
            most = number > most ? number : most;
        }
    }
    for (int i = 0; i < most; i++)
        values[i] = fetch(list, kinds[i]);
    return most > 0;
}

/* Whether the first conversion of a format names its argument by a number. */
static bool is_numbered(const char *format)
{
    int number;
    while ((format = strchr(format, '%')) != NULL) {
        if (format[1] != '%')
            return *read_number(format + 1, &number) == '$' && number > 0;
        format += 2;
    }
    return false;
}

int dthreads_exact_vfprintf(FILE *stream, const char *format, va_list given)
{
    struct output output = {.stream = stream, .is_wide = stream_is_wide(stream)};
    union value values[MOST_NUMBERED];
    va_list list;
    int error = errno;
    if (!(stream->flags & __SWR))
        return EOF;
    va_copy(list, given);
    struct arguments arguments = {&list, NULL};
    if (is_numbered(format) && fetch_numbered(format, &list, values))
        arguments.numbered = values;
    while (*format) {
        struct directive directive;
        int number;
        if (*format != '%') {
            put(&output, *format++);
            continue;
        }
        const char *start = format;
        format = read_directive(format + 1, &arguments, &directive, &number);
        if (directive.kind == '%')
            put(&output, '%');
        else if (directive.kind == 'm')
            put_string(&output, &directive, strerror(error));
        else if (!convert(&output, &directive, next_value(&arguments, number, fetched_by(&directive))))
            put_text(&output, start, (int)(format - start));
    }
    va_end(list);
    return output.has_failed ? EOF : output.count;
}
