/* wprintf and its kin. */
#include <errno.h>
#include <limits.h>
#include <stdarg.h>
#include <stdlib.h>
#include "wide.h"

int dthreads_exact_vfprintf(FILE *, const char *, va_list);

/* Wide text that printf writes. */
struct target {
    FILE file;
    struct utf8 state;
    wchar_t *text;
    size_t length;
    size_t room;
    bool may_grow;
};

static bool make_room(struct target *target)
{
    if (target->length < target->room)
        return true;
    if (!target->may_grow)
        return false;
    size_t room = target->room < 64 ? 64 : target->room * 2;
    wchar_t *larger = realloc(target->text, room * sizeof *larger);
    if (!larger)
        return false;
    target->text = larger;
    target->room = room;
    return true;
}

int wide_text_put(char byte, FILE *file)
{
    struct target *target = (struct target *)file;
    wchar_t character;
    if (!utf8_take(&target->state, (unsigned char)byte, &character))
        return 0;
    if (!make_room(target))
        return EOF;
    target->text[target->length++] = character;
    return 0;
}

static int print(struct target *target, const wchar_t *format, va_list arguments)
{
    char *narrow = utf8_of(format);
    if (!narrow)
        return -1;
    target->file = (FILE)FDEV_SETUP_STREAM(wide_text_put, NULL, NULL, _FDEV_SETUP_WRITE);
    int count = dthreads_exact_vfprintf(&target->file, narrow, arguments);
    free(narrow);
    return count;
}

int vswprintf(wchar_t *restrict text, size_t size, const wchar_t *restrict format, va_list arguments)
{
    struct target target = {.text = text, .room = size ? size - 1 : 0};
    int count = print(&target, format, arguments);
    if (size > 0)
        text[target.length] = 0;
    if (size == 0 || count < 0) {
        errno = EOVERFLOW;
        return -1;
    }
    return count;
}

/* Wide text as bytes of the locale, in memory of its own; NULL if it has a character without bytes. */
static char *bytes_of(const struct target *target, size_t *length)
{
    char *bytes = malloc(target->length * MB_LEN_MAX + MB_LEN_MAX);
    mbstate_t state = {0};
    *length = 0;
    for (size_t i = 0; bytes && i < target->length; i++) {
        size_t more = wcrtomb(bytes + *length, target->text[i], &state);
        if (more == (size_t)-1) {
            free(bytes);
            return NULL;
        }
        *length += more;
    }
    return bytes;
}

int vfwprintf(FILE *restrict stream, const wchar_t *restrict format, va_list arguments)
{
    struct target target = {.may_grow = true};
    size_t length;
    int count = print(&target, format, arguments);
    char *bytes = count < 0 ? NULL : bytes_of(&target, &length);
    if (!bytes || fwrite(bytes, 1, length, stream) < length)
        count = -1;
    free(bytes);
    free(target.text);
    return count;
}

int vwprintf(const wchar_t *restrict format, va_list arguments)
{
    return vfwprintf(stdout, format, arguments);
}

int swprintf(wchar_t *restrict text, size_t size, const wchar_t *restrict format, ...)
{
    va_list arguments;
    va_start(arguments, format);
    int count = vswprintf(text, size, format, arguments);
    va_end(arguments);
    return count;
}

int fwprintf(FILE *restrict stream, const wchar_t *restrict format, ...)
{
    va_list arguments;
    va_start(arguments, format);
    int count = vfwprintf(stream, format, arguments);
    va_end(arguments);
    return count;
}

int wprintf(const wchar_t *restrict format, ...)
{
    va_list arguments;
    va_start(arguments, format);
    int count = vfwprintf(stdout, format, arguments);
    va_end(arguments);
    return count;
}
