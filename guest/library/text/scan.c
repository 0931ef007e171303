/* scanf and its kin: characters come from the stream one by one, and the last one goes back if it doesn't belong. */
#include <ctype.h>
#include <stdarg.h>
#include <stdbool.h>
#include <stddef.h>
#include <stdint.h>
#include <stdio.h>
#include <stdlib.h>
#include <string.h>
#include <wchar.h>
#include "wide.h"

enum {
    /* The field of a number that needs no memory. */
    SHORT_FIELD = 64,
    ANY_WIDTH = INT32_MAX,
    /* Characters of a set. */
    BYTES = 256
};

enum size {
    OF_INT,
    OF_CHAR,
    OF_SHORT,
    OF_LONG,
    OF_LONG_LONG,
    OF_LONG_DOUBLE
};

enum outcome {
    MATCHED,
    MISMATCHED,
    /* The input has ended. */
    ENDED
};

struct directive {
    bool is_suppressed;
    bool is_allocated;
    int width;
    /* The number of the argument, or 0. */
    int number;
    enum size size;
    char kind;
    /* Of [: where the set begins and ends. */
    const char *set;
    const char *set_end;
};

struct source {
    FILE *stream;
    int count;
    /* Characters that the field may still have. */
    int left;
};

/* Text that grows. */
struct field {
    char *bytes;
    size_t length;
    size_t size;
    char room[SHORT_FIELD];
};

static int next(struct source *source)
{
    if (source->left == 0)
        return EOF;
    int character = fgetc(source->stream);
    if (character != EOF) {
        source->count++;
        source->left--;
    }
    return character;
}

static void back(struct source *source, int character)
{
    if (character == EOF)
        return;
    ungetc(character, source->stream);
    source->count--;
    source->left++;
}

static void skip_blanks(struct source *source)
{
    int character;
    source->left = ANY_WIDTH;
    do
        character = next(source);
    while (character != EOF && isspace(character));
    back(source, character);
}

/* Fields. */

static void field_begin(struct field *field)
{
    field->bytes = field->room;
    field->length = 0;
    field->size = sizeof field->room;
}

static void field_end(struct field *field)
{
    if (field->bytes != field->room)
        free(field->bytes);
}

/* Keeps one character, and a zero behind it; false if out of memory. */
static bool field_add(struct field *field, int character)
{
    if (field->length + 2 > field->size) {
        bool is_first = field->bytes == field->room;
        char *larger = realloc(is_first ? NULL : field->bytes, field->size * 2);
        if (!larger)
            return false;
        if (is_first)
            memcpy(larger, field->room, field->length);
        field->bytes = larger;
        field->size *= 2;
    }
    field->bytes[field->length++] = (char)character;
    field->bytes[field->length] = 0;
    return true;
}

/* Takes a character of the input into the field if it is one of `characters`. */
static bool take(struct source *source, struct field *field, const char *characters)
{
    int character = next(source);
    if (character != EOF && character != 0 && strchr(characters, character))
        return field_add(field, character);
    back(source, character);
    return false;
}

static bool take_all(struct source *source, struct field *field, const char *characters)
{
    size_t before = field->length;
    while (take(source, field, characters))
        ;
    return field->length > before;
}

/* Takes a word, in small letters or capitals, as far as the input has it. */
static bool take_word(struct source *source, struct field *field, const char *word)
{
    for (; *word; word++) {
        const char either[] = {*word, (char)toupper((unsigned char)*word), 0};
        if (!take(source, field, either))
            return false;
    }
    return true;
}

static const char decimals[] = "0123456789";
static const char hexadecimals[] = "0123456789abcdefABCDEF";

/* An integer's characters; the base is found out if it is 0. */
static bool take_integer(struct source *source, struct field *field, int *base)
{
    bool has_digits = false;
    take(source, field, "+-");
    if ((*base == 0 || *base == 16) && take(source, field, "0")) {
        has_digits = true;
        if (take(source, field, "xX"))
            *base = 16;
        else if (*base == 0)
            *base = 8;
    }
    if (*base == 0)
        *base = 10;
    const char *digits = *base == 16 ? hexadecimals : *base == 8 ? "01234567" : decimals;
    return take_all(source, field, digits) || has_digits;
}

static bool take_nan(struct source *source, struct field *field)
{
    if (!take_word(source, field, "nan"))
        return false;
    if (!take(source, field, "("))
        return true;
    take_all(source, field, "0123456789abcdefghijklmnopqrstuvwxyzABCDEFGHIJKLMNOPQRSTUVWXYZ_");
    return take(source, field, ")");
}

static bool take_infinity(struct source *source, struct field *field)
{
    if (!take_word(source, field, "inf"))
        return false;
    return !take(source, field, "iI") || take_word(source, field, "nity");
}

static bool take_real(struct source *source, struct field *field)
{
    const char *digits = decimals, *mark = "eE";
    take(source, field, "+-");
    int first = next(source);
    back(source, first);
    if (first == 'i' || first == 'I')
        return take_infinity(source, field);
    if (first == 'n' || first == 'N')
        return take_nan(source, field);
    bool has_digits = take(source, field, "0");
    if (has_digits && take(source, field, "xX")) {
        digits = hexadecimals;
        mark = "pP";
        has_digits = false;
    }
    has_digits = take_all(source, field, digits) || has_digits;
    if (take(source, field, "."))
        has_digits = take_all(source, field, digits) || has_digits;
    if (!has_digits)
        return false;
    if (take(source, field, mark)) {
        take(source, field, "+-");
        take_all(source, field, decimals);
    }
    return true;
}

/* What a conversion gives. */

static void store_integer(void *place, enum size size, uint64_t value)
{
    switch (size) {
    case OF_CHAR:
        *(unsigned char *)place = (unsigned char)value;
        break;
    case OF_SHORT:
        *(unsigned short *)place = (unsigned short)value;
        break;
    case OF_LONG_LONG:
    case OF_LONG_DOUBLE:
        *(unsigned long long *)place = value;
        break;
    case OF_LONG:
        *(unsigned long *)place = (unsigned long)value;
        break;
    default:
        *(unsigned *)place = (unsigned)value;
    }
}

static uint64_t integer_of(const char *text, int base, char kind, enum size size)
{
    bool is_signed = kind == 'd' || kind == 'i';
    if (size == OF_LONG_LONG || size == OF_LONG_DOUBLE)
        return is_signed ? (uint64_t)strtoll(text, NULL, base) : strtoull(text, NULL, base);
    return is_signed ? (uint64_t)strtol(text, NULL, base) : strtoul(text, NULL, base);
}

static enum outcome failed(const struct source *source)
{
    return feof(source->stream) || ferror(source->stream) ? ENDED : MISMATCHED;
}

static enum outcome scan_integer(struct source *source, const struct directive *directive, void *place)
{
    struct field field;
    int base = 10;
    if (directive->kind == 'i')
        base = 0;
    else if (directive->kind == 'o')
        base = 8;
    else if (directive->kind != 'd' && directive->kind != 'u')
        base = 16;
    field_begin(&field);
    int before = source->count;
    bool is_one = take_integer(source, &field, &base);
    if (is_one && !directive->is_suppressed) {
        enum size size = directive->kind == 'p' ? OF_INT : directive->size;
        store_integer(place, size, integer_of(field.bytes, base, directive->kind, size));
    }
    field_end(&field);
    return is_one ? MATCHED : source->count == before ? failed(source) : MISMATCHED;
}

static enum outcome scan_real(struct source *source, const struct directive *directive, void *place)
{
    struct field field;
    field_begin(&field);
    int before = source->count;
    bool is_one = take_real(source, &field);
    if (is_one && !directive->is_suppressed) {
        if (directive->size == OF_LONG_DOUBLE)
            *(long double *)place = strtold(field.bytes, NULL);
        else if (directive->size == OF_LONG)
            *(double *)place = strtod(field.bytes, NULL);
        else
            *(float *)place = strtof(field.bytes, NULL);
    }
    field_end(&field);
    return is_one ? MATCHED : source->count == before ? failed(source) : MISMATCHED;
}

/* Text: where it goes, as characters or wide characters, given or allocated. */
struct target {
    char *bytes;
    wchar_t *wide;
    void **allocated;
    size_t length;
    size_t size;
    mbstate_t state;
    struct utf8 utf8;
    /* The input's bytes are those of wide characters. */
    bool is_from_wide;
    bool has_failed;
};

static void target_begin(struct target *target, const struct directive *directive, void *place)
{
    bool is_wide = directive->size == OF_LONG;
    *target = (struct target){0};
    if (directive->is_suppressed)
        return;
    if (directive->is_allocated) {
        target->allocated = place;
        target->size = SHORT_FIELD;
        place = malloc(SHORT_FIELD * (is_wide ? sizeof(wchar_t) : 1));
        target->has_failed = !place;
    }
    if (is_wide)
        target->wide = place;
    else
        target->bytes = place;
}

static void target_grow(struct target *target)
{
    void *old = target->wide ? (void *)target->wide : target->bytes;
    void *larger = realloc(old, target->size * 2 * (target->wide ? sizeof(wchar_t) : 1));
    if (!larger) {
        target->has_failed = true;
        return;
    }
    target->size *= 2;
    if (target->wide)
        target->wide = larger;
    else
        target->bytes = larger;
}

static void target_add(struct target *target, int character)
{
    char byte = (char)character;
    if (!target->wide && !target->bytes)
        return;
    if (target->allocated && target->length + 1 >= target->size)
        target_grow(target);
    if (target->has_failed)
        return;
    if (target->bytes)
        target->bytes[target->length++] = byte;
    else if (target->is_from_wide)
        target->length += utf8_take(&target->utf8, (unsigned char)byte, &target->wide[target->length]);
    else if (mbrtowc(&target->wide[target->length], &byte, 1, &target->state) <= 1)
        target->length++;
}

/* Ends the text, with a zero if it is a string. */
static enum outcome target_end(struct target *target, bool has_zero)
{
    if (target->has_failed) {
        free(target->wide ? (void *)target->wide : target->bytes);
        return ENDED;
    }
    if (has_zero && target->bytes)
        target->bytes[target->length] = 0;
    if (has_zero && target->wide)
        target->wide[target->length] = 0;
    if (target->allocated)
        *target->allocated = target->wide ? (void *)target->wide : target->bytes;
    return MATCHED;
}

static enum outcome target_drop(struct target *target, const struct source *source)
{
    if (target->allocated)
        free(target->wide ? (void *)target->wide : target->bytes);
    return failed(source);
}

/* Reads the set of [ into a table. */
static void read_set(const struct directive *directive, bool *members)
{
    const char *place = directive->set;
    bool is_inverse = *place == '^';
    place += is_inverse;
    memset(members, is_inverse, BYTES);
    for (; place < directive->set_end; place++) {
        unsigned char from = (unsigned char)*place, to = from;
        if (place + 2 < directive->set_end && place[1] == '-') {
            to = (unsigned char)place[2];
            place += 2;
        }
        for (int each = from; each <= to; each++)
            members[each] = !is_inverse;
    }
}

static enum outcome scan_text(struct source *source, const struct directive *directive, void *place)
{
    bool members[BYTES];
    struct target target;
    int character, count = 0;
    if (directive->kind == '[')
        read_set(directive, members);
    else
        for (int i = 0; i < BYTES; i++)
            members[i] = !isspace(i);
    target_begin(&target, directive, place);
    target.is_from_wide = stream_is_wide(source->stream);
    while ((character = next(source)) != EOF && members[character]) {
        target_add(&target, character);
        count++;
    }
    back(source, character);
    return count == 0 ? target_drop(&target, source) : target_end(&target, true);
}

static enum outcome scan_characters(struct source *source, const struct directive *directive, void *place)
{
    struct target target;
    int character, wanted = directive->width == ANY_WIDTH ? 1 : directive->width;
    source->left = wanted;
    target_begin(&target, directive, place);
    target.is_from_wide = stream_is_wide(source->stream);
    while (source->left > 0 && (character = next(source)) != EOF)
        target_add(&target, character);
    return source->left == wanted ? target_drop(&target, source) : target_end(&target, false);
}

/* Formats. */

static const char *read_number(const char *format, int *number)
{
    for (*number = 0; isdigit((unsigned char)*format); format++)
        *number = *number > ANY_WIDTH / 10 - 1 ? ANY_WIDTH : *number * 10 + (*format - '0');
    return format;
}

static const char *read_size(const char *format, enum size *size)
{
    switch (*format) {
    case 'h':
        *size = format[1] == 'h' ? OF_CHAR : OF_SHORT;
        return format + (*size == OF_CHAR ? 2 : 1);
    case 'l':
        *size = format[1] == 'l' ? OF_LONG_LONG : OF_LONG;
        return format + (*size == OF_LONG_LONG ? 2 : 1);
    case 'q':
    case 'j':
        *size = OF_LONG_LONG;
        return format + 1;
    case 'L':
        *size = OF_LONG_DOUBLE;
        return format + 1;
    case 'z':
    case 't':
        *size = OF_INT;
        return format + 1;
    default:
        *size = OF_INT;
        return format;
    }
}

/* The set of [ ends at the first ] behind its first character. */
static const char *read_set_end(const char *format, struct directive *directive)
{
    directive->set = format;
    if (*format == '^')
        format++;
    if (*format == ']')
        format++;
    while (*format && *format != ']')
        format++;
    directive->set_end = format;
    return *format ? format + 1 : format;
}

static const char *read_directive(const char *format, struct directive *directive)
{
    *directive = (struct directive){0};
    const char *after = read_number(format, &directive->number);
    if (*after == '$')
        format = after + 1;
    else
        directive->number = 0;
    if (*format == '*') {
        directive->is_suppressed = true;
        format++;
    }
    if (*format == '\'')
        format++;
    format = read_number(format, &directive->width);
    if (directive->width == 0)
        directive->width = ANY_WIDTH;
    if (*format == 'm') {
        directive->is_allocated = true;
        format++;
    }
    format = read_size(format, &directive->size);
    directive->kind = *format;
    if (*format)
        format++;
    if (directive->kind == 'C' || directive->kind == 'S') {
        directive->kind |= 0x20;
        directive->size = OF_LONG;
    }
    return directive->kind == '[' ? read_set_end(format, directive) : format;
}

static void *place_of(const struct directive *directive, va_list *list)
{
    if (directive->number == 0)
        return va_arg(*list, void *);
    va_list copy;
    void *place = NULL;
    va_copy(copy, *list);
    for (int i = 0; i < directive->number; i++)
        place = va_arg(copy, void *);
    va_end(copy);
    return place;
}

static enum outcome scan_one(struct source *source, const struct directive *directive, void *place)
{
    source->left = directive->width;
    switch (directive->kind) {
    case 'd':
    case 'i':
    case 'u':
    case 'o':
    case 'x':
    case 'X':
    case 'p':
        return scan_integer(source, directive, place);
    case 'e':
    case 'E':
    case 'f':
    case 'F':
    case 'g':
    case 'G':
    case 'a':
    case 'A':
        return scan_real(source, directive, place);
    case 's':
    case '[':
        return scan_text(source, directive, place);
    case 'c':
        return scan_characters(source, directive, place);
    default:
        return MISMATCHED;
    }
}

/* A character of the format that must come. */
static enum outcome match(struct source *source, char wanted)
{
    source->left = ANY_WIDTH;
    int character = next(source);
    if (character == (unsigned char)wanted)
        return MATCHED;
    back(source, character);
    return character == EOF ? ENDED : MISMATCHED;
}

/* One conversion; `assigned` counts those that store. */
static enum outcome scan_directive(struct source *source, const struct directive *directive, va_list *list, int *assigned)
{
    void *place = NULL;
    if (directive->kind != 'c' && directive->kind != '[' && directive->kind != 'n')
        skip_blanks(source);
    if (directive->kind == '%')
        return match(source, '%');
    if (!directive->is_suppressed)
        place = place_of(directive, list);
    if (directive->kind == 'n') {
        if (place)
            store_integer(place, directive->size, (uint64_t)source->count);
        return MATCHED;
    }
    enum outcome outcome = scan_one(source, directive, place);
    if (outcome == MATCHED && !directive->is_suppressed)
        ++*assigned;
    return outcome;
}

int dthreads_exact_vfscanf(FILE *stream, const char *format, va_list given)
{
    struct source source = {.stream = stream};
    enum outcome outcome = MATCHED;
    int assigned = 0;
    va_list list;
    va_copy(list, given);
    while (*format && outcome == MATCHED) {
        struct directive directive;
        if (isspace((unsigned char)*format)) {
            skip_blanks(&source);
            format++;
        } else if (*format != '%') {
            outcome = match(&source, *format++);
        } else {
            format = read_directive(format + 1, &directive);
            outcome = scan_directive(&source, &directive, &list, &assigned);
        }
    }
    va_end(list);
    return outcome == ENDED && assigned == 0 ? EOF : assigned;
}
