/* Characters of one byte: wide ones have the same number. C++'s library asks for each of them before main. */
#include <stdio.h>
#include <wchar.h>

wint_t btowc(int byte)
{
    return byte == EOF ? WEOF : (wint_t)(unsigned char)byte;
}

int wctob(wint_t character)
{
    return character <= (wint_t)(unsigned char)-1 ? (int)character : EOF;
}
