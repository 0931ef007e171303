/* wscanf and its kin. */
#include <stdarg.h>
#include <stdlib.h>
#include "wide.h"

int dthreads_exact_vfscanf(FILE *, const char *, va_list);
int __wrap_vfscanf(FILE *, const char *, va_list);

/* Wide text that scanf reads. */
struct source {
    FILE file;
    const wchar_t *text;
    char bytes[4];
    int place;
    int length;
};

int wide_text_get(FILE *file)
{
    struct source *source = (struct source *)file;
    if (source->place == source->length) {
        if (!*source->text)
            return _FDEV_EOF;
        source->length = utf8_put(source->bytes, *source->text++);
        source->place = 0;
    }
    return (unsigned char)source->bytes[source->place++];
}

int vswscanf(const wchar_t *restrict text, const wchar_t *restrict format, va_list arguments)
{
    struct source source = {.file = FDEV_SETUP_STREAM(NULL, wide_text_get, NULL, _FDEV_SETUP_READ), .text = text};
    char *narrow = utf8_of(format);
    int count = narrow ? dthreads_exact_vfscanf(&source.file, narrow, arguments) : EOF;
    free(narrow);
    return count;
}

int vfwscanf(FILE *restrict stream, const wchar_t *restrict format, va_list arguments)
{
    char *narrow = utf8_of(format);
    int count = narrow ? __wrap_vfscanf(stream, narrow, arguments) : EOF;
    free(narrow);
    return count;
}

int vwscanf(const wchar_t *restrict format, va_list arguments)
{
    return vfwscanf(stdin, format, arguments);
}

int swscanf(const wchar_t *restrict text, const wchar_t *restrict format, ...)
{
    va_list arguments;
    va_start(arguments, format);
    int count = vswscanf(text, format, arguments);
    va_end(arguments);
    return count;
}

int fwscanf(FILE *restrict stream, const wchar_t *restrict format, ...)
{
    va_list arguments;
    va_start(arguments, format);
    int count = vfwscanf(stream, format, arguments);
    va_end(arguments);
    return count;
}

int wscanf(const wchar_t *restrict format, ...)
{
    va_list arguments;
    va_start(arguments, format);
    int count = vfwscanf(stdin, format, arguments);
    va_end(arguments);
    return count;
}
