/* UTF-8. */
#include <stdlib.h>
#include "wide.h"

int utf8_put(char *bytes, wchar_t character)
{
    uint32_t code = (uint32_t)character;
    if (code < 0x80) {
        bytes[0] = (char)code;
        return 1;
    }
    int more = code < 0x800 ? 1 : code < 0x10000 ? 2 : 3;
    static const unsigned char first[] = {0, 0xc0, 0xe0, 0xf0};
    bytes[0] = (char)(first[more] | code >> (6 * more));
    for (int i = 1; i <= more; i++)
        bytes[i] = (char)(0x80 | (code >> (6 * (more - i)) & 0x3f));
    return more + 1;
}

bool utf8_take(struct utf8 *state, unsigned char byte, wchar_t *character)
{
    if (state->left == 0) {
        state->left = byte >= 0xf0 ? 3 : byte >= 0xe0 ? 2 : byte >= 0xc0 ? 1 : 0;
        state->character = state->left == 0 ? byte : byte & (0x3f >> state->left);
    } else {
        state->left--;
        state->character = state->character << 6 | (byte & 0x3f);
    }
    *character = (wchar_t)state->character;
    return state->left == 0;
}

char *utf8_of(const wchar_t *text)
{
    char *bytes = malloc(wcslen(text) * 4 + 1), *place = bytes;
    if (!bytes)
        return NULL;
    for (; *text; text++)
        place += utf8_put(place, *text);
    *place = 0;
    return bytes;
}
