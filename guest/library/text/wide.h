/* Wide text and UTF-8, in which wide formats and strings pass through printf and scanf. */
#ifndef WIDE_H
#define WIDE_H

#include <stdbool.h>
#include <stdio.h>
#include <wchar.h>
#include "../names.h"

/* A character of which some bytes came. */
struct utf8 {
    uint32_t character;
    uint32_t left;
};

/* The bytes of a character, up to four. */
int utf8_put(char *bytes, wchar_t character);
/* Takes one byte more; true if it ends a character. */
bool utf8_take(struct utf8 *state, unsigned char byte, wchar_t *character);
/* A string as UTF-8, in memory of its own, or NULL. */
char *utf8_of(const wchar_t *text);

/* What the streams of wide text call; they are linked by need. */
__attribute__((weak)) int wide_text_put(char, FILE *);
__attribute__((weak)) int wide_text_get(FILE *);

/* Whether a stream passes wide text: printf and scanf then neither count nor take bytes, but characters. */
static inline bool stream_is_wide(const FILE *file)
{
    return (wide_text_put && file->put == wide_text_put) || (wide_text_get && file->get == wide_text_get);
}

#endif
