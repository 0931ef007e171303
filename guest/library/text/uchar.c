/* Characters of 16 and 32 bits. */
#include <errno.h>
#include <uchar.h>
#include <wchar.h>

enum {
    HIGH_SURROGATES = 0xd800,
    LOW_SURROGATES = 0xdc00,
    SURROGATES_END = 0xe000,
    BEYOND_16_BITS = 0x10000,
    /* What mbrtoc16 answers for the second half of a pair. */
    SECOND_HALF = -3
};

static size_t refuse(void)
{
    errno = EILSEQ;
    return (size_t)-1;
}

size_t mbrtoc32(char32_t *restrict character, const char *restrict bytes, size_t count, mbstate_t *restrict state)
{
    static mbstate_t own;
    wchar_t wide = 0;
    size_t length = mbrtowc(&wide, bytes, count, state ? state : &own);
    if (bytes && character && (length <= count || length == 0))
        *character = (char32_t)wide;
    return length;
}

size_t c32rtomb(char *restrict bytes, char32_t character, mbstate_t *restrict state)
{
    static mbstate_t own;
    return wcrtomb(bytes, (wchar_t)character, state ? state : &own);
}

/* The second half of a pair, which the next call gives. */
static _Thread_local char16_t rest;

size_t mbrtoc16(char16_t *restrict character, const char *restrict bytes, size_t count, mbstate_t *restrict state)
{
    char32_t wide = 0;
    if (rest && bytes) {
        if (character)
            *character = rest;
        rest = 0;
        return (size_t)SECOND_HALF;
    }
    size_t length = mbrtoc32(&wide, bytes, count, state);
    if (!bytes || length > count)
        return length;
    if (wide >= BEYOND_16_BITS) {
        rest = (char16_t)(LOW_SURROGATES | (wide & 0x3ff));
        wide = HIGH_SURROGATES | ((wide - BEYOND_16_BITS) >> 10);
    }
    if (character)
        *character = (char16_t)wide;
    return length;
}

size_t c16rtomb(char *restrict bytes, char16_t character, mbstate_t *restrict state)
{
    static _Thread_local char16_t high;
    char32_t wide = character;
    if (!bytes) {
        high = 0;
        return 1;
    }
    if (character >= HIGH_SURROGATES && character < LOW_SURROGATES) {
        high = character;
        return 0;
    }
    if (character >= LOW_SURROGATES && character < SURROGATES_END) {
        if (!high)
            return refuse();
        wide = BEYOND_16_BITS + ((char32_t)(high & 0x3ff) << 10 | (character & 0x3ff));
    }
    high = 0;
    return c32rtomb(bytes, wide, state);
}
