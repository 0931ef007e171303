/* Wide characters on streams: each is read and written as the bytes of the locale. A stream has no orientation. */
#include <errno.h>
#include <limits.h>
#include <stdlib.h>
#include <time.h>
#include "../text/wide.h"
#include "stream.h"

#undef getwc
#undef putwc
#undef getwchar
#undef putwchar

int fwide(FILE *stream, int mode)
{
    (void)stream;
    return mode;
}

wint_t fputwc(wchar_t character, FILE *stream)
{
    char bytes[MB_LEN_MAX];
    mbstate_t state = {0};
    size_t length = wcrtomb(bytes, character, &state);
    if (length == (size_t)-1) {
        stream->flags |= __SERR;
        return WEOF;
    }
    return fwrite(bytes, 1, length, stream) == length ? (wint_t)character : WEOF;
}

wint_t putwc(wchar_t character, FILE *stream)
{
    return fputwc(character, stream);
}

wint_t putwchar(wchar_t character)
{
    return fputwc(character, stdout);
}

int fputws(const wchar_t *restrict text, FILE *restrict stream)
{
    size_t length = wcslen(text) * MB_LEN_MAX;
    const wchar_t *place = text;
    mbstate_t state = {0};
    char *bytes = malloc(length + 1);
    if (!bytes)
        return -1;
    length = wcsrtombs(bytes, &place, length + 1, &state);
    bool is_done = length != (size_t)-1 && fwrite(bytes, 1, length, stream) == length;
    free(bytes);
    return is_done ? 0 : -1;
}

static wint_t get(FILE *file)
{
    mbstate_t state = {0};
    wchar_t wide;
    for (;;) {
        int character = fgetc(file);
        char byte = (char)character;
        if (character == EOF)
            return WEOF;
        size_t length = mbrtowc(&wide, &byte, 1, &state);
        if (length == (size_t)-1) {
            file->flags |= __SERR;
            return WEOF;
        }
        if (length <= 1)
            return (wint_t)wide;
    }
}

wint_t fgetwc(FILE *file)
{
    struct stream *stream = stream_of(file);
    if (stream)
        stream_enter(stream);
    wint_t character = get(file);
    if (stream)
        stream_leave(stream);
    return character;
}

wint_t getwc(FILE *stream)
{
    return fgetwc(stream);
}

wint_t getwchar(void)
{
    return fgetwc(stdin);
}

wchar_t *fgetws(wchar_t *restrict text, int size, FILE *restrict file)
{
    struct stream *stream = stream_of(file);
    int length = 0;
    wint_t character = 0;
    if (stream)
        stream_enter(stream);
    while (length < size - 1 && character != L'\n' && (character = get(file)) != WEOF)
        text[length++] = (wchar_t)character;
    if (stream)
        stream_leave(stream);
    if (size > 0)
        text[length] = 0;
    return length > 0 ? text : NULL;
}

/* One byte can go back. */
wint_t ungetwc(wint_t character, FILE *stream)
{
    char bytes[MB_LEN_MAX];
    mbstate_t state = {0};
    if (character == WEOF || wcrtomb(bytes, (wchar_t)character, &state) != 1)
        return WEOF;
    return ungetc((unsigned char)bytes[0], stream) == EOF ? WEOF : character;
}

long double wcstold(const wchar_t *restrict text, wchar_t **restrict end)
{
    size_t length = wcslen(text), i;
    char *bytes = malloc(length + 1), *stop;
    if (!bytes)
        return 0;
    for (i = 0; i < length && text[i] > 0 && text[i] < 0x80; i++)
        bytes[i] = (char)text[i];
    bytes[i] = 0;
    long double value = strtold(bytes, &stop);
    if (end)
        *end = (wchar_t *)text + (stop - bytes);
    free(bytes);
    return value;
}

size_t wcsftime(wchar_t *restrict text, size_t size, const wchar_t *restrict format, const struct tm *restrict time)
{
    char *narrow = utf8_of(format), *bytes = malloc(size * 4 + 1);
    struct utf8 state = {0, 0};
    size_t length = 0;
    size_t count = narrow && bytes ? strftime(bytes, size * 4 + 1, narrow, time) : 0;
    for (size_t i = 0; i < count && length < size; i++)
        length += utf8_take(&state, (unsigned char)bytes[i], &text[length]);
    free(narrow);
    free(bytes);
    if (count == 0 || length == size)
        return 0;
    text[length] = 0;
    return length;
}
