/* Searching and comparing texts by words, in place of the C library's loops over bytes. The word in which a text ends may hold bytes of
 * others, which are no part of the access: words are looked at as the library's own, and those that lie within the text are loaded
 * once more, so that a list of races has each byte of it and no other. */
#include <stdbool.h>
#include <stdint.h>
#include <string.h>
#include "../threads/hints.h"

/* A word that may be part of any object. */
typedef uint32_t __attribute__((may_alias)) word;

enum {
    WORD = sizeof(word),
    /* Words that are looked at together, aligned so that they lie on one page. */
    ROUND = 4,
    ROUND_BYTES = ROUND * WORD
};

#define ONES UINT32_C(0x01010101)
#define HIGHS UINT32_C(0x80808080)
#define INLINE static inline __attribute__((always_inline))

INLINE void access_round(const word *place)
{
    __asm__ volatile("lw x0, 0(%0)\n\tlw x0, 4(%0)\n\tlw x0, 8(%0)\n\tlw x0, 12(%0)" : : "r"(place) : "memory");
}

/* What tells a byte that is 0: in registers, which the compiler doesn't do by itself. */
struct masks {
    word ones;
    word highs;
};

INLINE struct masks make_masks(void)
{
    struct masks masks = {ONES, HIGHS};
    __asm__("" : "+r"(masks.ones), "+r"(masks.highs));
    return masks;
}

/* Whether one of a word's bytes is 0. */
INLINE bool has_zero_byte(word value)
{
    return ((value - ONES) & ~value & HIGHS) != 0;
}

/* Whether one of a round's words has a byte that is 0 once its word is changed by `pattern`. Exact, for the rounds of which it isn't
 * known by less work: bytes of more than 0x80 look like zeros there. */
static __attribute__((noinline, cold)) bool has_zero_in(const word *place, word pattern)
{
    return has_zero_byte(place[0] ^ pattern) || has_zero_byte(place[1] ^ pattern) || has_zero_byte(place[2] ^ pattern) ||
           has_zero_byte(place[3] ^ pattern);
}

INLINE bool has_zero(const word *place, word pattern, struct masks masks)
{
    hint_enter();
    word a = place[0] ^ pattern, b = place[1] ^ pattern, c = place[2] ^ pattern, d = place[3] ^ pattern;
    word all = (a - masks.ones) | (b - masks.ones) | (c - masks.ones) | (d - masks.ones);
    bool is_found = (all & masks.highs) != 0 && has_zero_in(place, pattern);
    hint_leave();
    return is_found;
}

/* Where the first round lies: the bytes before it are looked at one by one. */
INLINE const char *first_round(const char *text)
{
    return (const char *)(((uintptr_t)text + ROUND_BYTES - 1) & ~(uintptr_t)(ROUND_BYTES - 1));
}

static __attribute__((noinline)) const char *end_from(const char *place)
{
    struct masks masks = make_masks();
    for (; !has_zero((const word *)place, 0, masks); place += ROUND_BYTES)
        access_round((const word *)place);
    while (*place)
        place++;
    return place;
}

size_t strlen(const char *text)
{
    const char *round = first_round(text);
    for (const char *place = text; place != round; place++)
        if (!*place)
            return (size_t)(place - text);
    return (size_t)(end_from(round) - text);
}

/* As has_zero, for 0 and for a byte. */
INLINE bool has_either(const word *place, word pattern, struct masks masks)
{
    hint_enter();
    word a = place[0], b = place[1], c = place[2], d = place[3];
    word all = (a - masks.ones) | (b - masks.ones) | (c - masks.ones) | (d - masks.ones);
    all |= ((a ^ pattern) - masks.ones) | ((b ^ pattern) - masks.ones) | ((c ^ pattern) - masks.ones) | ((d ^ pattern) - masks.ones);
    bool is_found = (all & masks.highs) != 0 && (has_zero_in(place, 0) || has_zero_in(place, pattern));
    hint_leave();
    return is_found;
}

static __attribute__((noinline)) const char *find_from(const char *place, char wanted)
{
    struct masks masks = make_masks();
    for (; !has_either((const word *)place, (unsigned char)wanted * ONES, masks); place += ROUND_BYTES)
        access_round((const word *)place);
    while (*place != wanted && *place)
        place++;
    return place;
}

/* The first place of a character, or of the end. */
INLINE const char *find(const char *place, char wanted)
{
    for (const char *round = first_round(place); place != round; place++)
        if (*place == wanted || !*place)
            return place;
    return find_from(place, wanted);
}

char *strchr(const char *text, int character)
{
    const char *place = find(text, (char)character);
    return *place == (char)character ? (char *)place : NULL;
}

void *memchr(const void *range, int byte, size_t size)
{
    struct masks masks = make_masks();
    const unsigned char *place = range, *end = place + size;
    unsigned char wanted = (unsigned char)byte;
    if (size > UINTPTR_MAX - (uintptr_t)place)
        end = (const unsigned char *)UINTPTR_MAX;
    for (; place != end && (uintptr_t)place % ROUND_BYTES != 0; place++)
        if (*place == wanted)
            return (void *)place;
    for (; (size_t)(end - place) >= ROUND_BYTES && !has_zero((const word *)place, wanted * ONES, masks); place += ROUND_BYTES)
        access_round((const word *)place);
    for (; place != end; place++)
        if (*place == wanted)
            return (void *)place;
    return NULL;
}

/* Whether two words differ or have the end of a text. */
INLINE bool ends_here(word one, word other, struct masks masks)
{
    return one != other || (((one - masks.ones) & masks.highs) != 0 && has_zero_byte(one));
}

/* Whether two texts differ or end within a round. Words are loaded one by one, since a page may end between them. */
INLINE bool ends_in_round(const word *one, const word *other, struct masks masks)
{
    hint_enter();
    bool is_found = ends_here(one[0], other[0], masks) || ends_here(one[1], other[1], masks) || ends_here(one[2], other[2], masks) ||
                    ends_here(one[3], other[3], masks);
    hint_leave();
    return is_found;
}

int strcmp(const char *left, const char *right)
{
    struct masks masks = make_masks();
    const unsigned char *one = (const unsigned char *)left, *other = (const unsigned char *)right;
    for (; (uintptr_t)one % WORD != 0; one++, other++)
        if (*one != *other || !*one)
            return *one - *other;
    if ((uintptr_t)other % WORD == 0)
        for (; !ends_in_round((const word *)one, (const word *)other, masks); one += ROUND_BYTES, other += ROUND_BYTES) {
            access_round((const word *)one);
            access_round((const word *)other);
        }
    for (; *one == *other && *one; one++)
        other++;
    return *one - *other;
}
