/* Copying, filling and comparing by words, in place of the C library's loops over bytes. No byte outside the ranges is loaded. */
#include <stdint.h>
#include <string.h>

/* A word that may be part of any object. */
typedef uint32_t __attribute__((may_alias)) word;

enum {
    WORD = sizeof(word),
    BITS = 8,
    /* Words of a round: of plain copies and fills, and if each word takes more work. */
    LONG_ROUND = 8,
    ROUND = 4,
    /* Shorter ranges aren't worth the tests. */
    SHORT = 16
};

#define INLINE static inline __attribute__((always_inline))

INLINE uint32_t offset_of(const void *address)
{
    return (uint32_t)(uintptr_t)address % WORD;
}

/* The word that begins within `low` and ends within `high`, the word behind it. */
INLINE word joined(word low, word high, uint32_t right, uint32_t left)
{
    return low >> right | high << left;
}

/* Words of a range of `size` bytes from or up to an address, those of its own word aside that aren't in the range. */
INLINE size_t words_of(size_t size, uint32_t aside)
{
    return (size - aside) / WORD;
}

/* Copies upwards, both addresses being aligned. */
INLINE void words_up(word *target, const word *source, size_t count)
{
    const word *end = source + count / LONG_ROUND * LONG_ROUND;
    for (; source != end; source += LONG_ROUND, target += LONG_ROUND) {
        word a = source[0], b = source[1], c = source[2], d = source[3], e = source[4], f = source[5], g = source[6], h = source[7];
        target[0] = a;
        target[1] = b;
        target[2] = c;
        target[3] = d;
        target[4] = e;
        target[5] = f;
        target[6] = g;
        target[7] = h;
    }
    if (count % LONG_ROUND >= ROUND) {
        word a = source[0], b = source[1], c = source[2], d = source[3];
        target[0] = a;
        target[1] = b;
        target[2] = c;
        target[3] = d;
        source += ROUND;
        target += ROUND;
    }
    for (end = source + count % ROUND; source != end;)
        *target++ = *source++;
}

/* The same from a source that isn't aligned; the bytes before it in its word are loaded again. */
INLINE void shifted_up(word *target, const char *from, size_t count)
{
    uint32_t right = offset_of(from) * BITS, left = WORD * BITS - right;
    const word *source = (const word *)(from - offset_of(from)), *end = source + 1 + count / ROUND * ROUND;
    word last = *source++;
    for (; source != end; source += ROUND, target += ROUND) {
        word a = source[0], b = source[1], c = source[2], d = source[3];
        target[0] = joined(last, a, right, left);
        target[1] = joined(a, b, right, left);
        target[2] = joined(b, c, right, left);
        target[3] = joined(c, d, right, left);
        last = d;
    }
    for (end += count % ROUND; source != end; last = *source++)
        *target++ = joined(last, *source, right, left);
}

INLINE void copy_up(char *target, const char *source, size_t size)
{
    if (size >= SHORT) {
        const char *enough = source + WORD;
        for (; offset_of(target) != 0 || (offset_of(source) != 0 && source < enough); size--)
            *target++ = *source++;
        uint32_t offset = offset_of(source);
        size_t count = words_of(size, offset ? WORD - offset : 0);
        if (offset)
            shifted_up((word *)target, source, count);
        else
            words_up((word *)target, (const word *)source, count);
        target += count * WORD;
        source += count * WORD;
        size -= count * WORD;
    }
    while (size-- > 0)
        *target++ = *source++;
}

void *memcpy(void *restrict to, const void *restrict from, size_t size)
{
    copy_up(to, from, size);
    return to;
}

/* Copies downwards, the addresses being the ends. */
INLINE void words_down(word *target, const word *source, size_t count)
{
    const word *end = source - count / LONG_ROUND * LONG_ROUND;
    while (source != end) {
        source -= LONG_ROUND;
        target -= LONG_ROUND;
        word a = source[0], b = source[1], c = source[2], d = source[3], e = source[4], f = source[5], g = source[6], h = source[7];
        target[7] = h;
        target[6] = g;
        target[5] = f;
        target[4] = e;
        target[3] = d;
        target[2] = c;
        target[1] = b;
        target[0] = a;
    }
    for (end -= count % LONG_ROUND; source != end;)
        *--target = *--source;
}

/* The same from a source that isn't aligned; the bytes behind it in its word are loaded again. */
INLINE void shifted_down(word *target, const char *from, size_t count)
{
    uint32_t right = offset_of(from) * BITS, left = WORD * BITS - right;
    const word *source = (const word *)(from - offset_of(from)), *end = source - count / ROUND * ROUND;
    word last = *source;
    while (source != end) {
        source -= ROUND;
        target -= ROUND;
        word a = source[0], b = source[1], c = source[2], d = source[3];
        target[3] = joined(d, last, right, left);
        target[2] = joined(c, d, right, left);
        target[1] = joined(b, c, right, left);
        target[0] = joined(a, b, right, left);
        last = a;
    }
    for (end -= count % ROUND; source != end; last = *source)
        *--target = joined(*--source, last, right, left);
}

INLINE void copy_down(char *target, const char *source, size_t size)
{
    if (size >= SHORT) {
        const char *enough = source - WORD;
        for (; offset_of(target) != 0 || (offset_of(source) != 0 && source > enough); size--)
            *--target = *--source;
        uint32_t offset = offset_of(source);
        size_t count = words_of(size, offset);
        if (offset)
            shifted_down((word *)target, source, count);
        else
            words_down((word *)target, (const word *)source, count);
        target -= count * WORD;
        source -= count * WORD;
        size -= count * WORD;
    }
    while (size-- > 0)
        *--target = *--source;
}

void *memmove(void *to, const void *from, size_t size)
{
    if ((uintptr_t)to - (uintptr_t)from >= size)
        copy_up(to, from, size);
    else
        copy_down((char *)to + size, (const char *)from + size, size);
    return to;
}

void *memset(void *to, int byte, size_t size)
{
    char *target = to;
    if (size >= SHORT) {
        word pattern = (unsigned char)byte * UINT32_C(0x01010101);
        for (; offset_of(target) != 0; size--)
            *target++ = (char)byte;
        word *place = (word *)target, *end = place + size / (2 * LONG_ROUND * WORD) * 2 * LONG_ROUND;
        for (; place != end; place += 2 * LONG_ROUND) {
            place[0] = place[1] = place[2] = place[3] = place[4] = place[5] = place[6] = place[7] = pattern;
            place[8] = place[9] = place[10] = place[11] = place[12] = place[13] = place[14] = place[15] = pattern;
        }
        for (end = (word *)target + size / WORD; place != end;)
            *place++ = pattern;
        target = (char *)place;
        size %= WORD;
    }
    while (size-- > 0)
        *target++ = (char)byte;
    return to;
}

/* Bytes at the starts of two ranges that are equal, in whole words: of `count` words, the first being aligned. */
INLINE size_t equal_words(const word *one, const word *other, size_t count)
{
    const word *start = one, *end = one + count / ROUND * ROUND;
    for (; one != end; one += ROUND, other += ROUND)
        if (one[0] != other[0] || one[1] != other[1] || one[2] != other[2] || one[3] != other[3])
            break;
    return (size_t)(one - start) * WORD;
}

/* The same if the other range isn't aligned. */
INLINE size_t equal_shifted(const word *one, const char *from, size_t count)
{
    uint32_t right = offset_of(from) * BITS, left = WORD * BITS - right;
    const word *start = one, *end = one + count / ROUND * ROUND, *other = (const word *)(from - offset_of(from));
    word last = *other++;
    for (; one != end; one += ROUND, other += ROUND) {
        word a = other[0], b = other[1], c = other[2], d = other[3];
        if (one[0] != joined(last, a, right, left) || one[1] != joined(a, b, right, left) || one[2] != joined(b, c, right, left) ||
            one[3] != joined(c, d, right, left))
            break;
        last = d;
    }
    return (size_t)(one - start) * WORD;
}

/* The difference of the first bytes that differ. */
INLINE int compare_bytes(const unsigned char *one, const unsigned char *other, const unsigned char *end)
{
    for (; one != end; one++, other++)
        if (*one != *other)
            return *one - *other;
    return 0;
}

int memcmp(const void *left, const void *right, size_t size)
{
    const unsigned char *one = left, *other = right, *end = one + size;
    if (size >= SHORT) {
        const unsigned char *enough = other + WORD;
        for (; offset_of(one) != 0 || (offset_of(other) != 0 && other < enough); one++, other++)
            if (*one != *other)
                return *one - *other;
        uint32_t offset = offset_of(other);
        size_t count = words_of((size_t)(end - one), offset ? WORD - offset : 0);
        size_t equal = offset ? equal_shifted((const word *)one, (const char *)other, count)
                              : equal_words((const word *)one, (const word *)other, count);
        one += equal;
        other += equal;
    }
    return compare_bytes(one, other, end);
}
