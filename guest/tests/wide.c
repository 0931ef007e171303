/* Wide streams and formats, and the other functions of C11 that take wide characters. */
#include <errno.h>
#include <stdarg.h>
#include <stdio.h>
#include <stdlib.h>
#include <string.h>
#include <time.h>
#include <uchar.h>
#include <wchar.h>

int main(void)
{
    wchar_t text[100], word[20], *end;
    int number = 0, length = 0;
    double real = 0;
    wint_t character;
    int count = swprintf(text, 100, L"%d|%5ls|%-6s|%lc|%.3f|%ls", 42, L"ab", "cd", L'x', 1.5, L"\x263a\x10ffff");
    wprintf(L"%d %d %x %x\n", count, (int)wcslen(text), (unsigned)text[count - 2], (unsigned)text[count - 1]);
    text[count - 2] = 0;
    wprintf(L"%ls\n", text);
    wprintf(L"%d\n", swprintf(text, 5, L"%d", 123456));
    count = swscanf(L"12 word 2.5 \x263ay", L"%d %ls %lf %n%l[^ ]", &number, word, &real, &length, text);
    wprintf(L"%d %d %ls %.2f %x %x\n", count, number, word, real, (unsigned)text[0], (unsigned)text[1]);
    wprintf(L"%.6Lf", wcstold(L"  3.25e1xyz", &end));
    wprintf(L" %ls\n", end);
    struct tm time = {.tm_year = 100, .tm_mon = 1, .tm_mday = 3};
    wprintf(L"%d", (int)wcsftime(text, 100, L"%Y-%m-%d", &time));
    wprintf(L" %ls\n", text);
    fputws(L"a line\n", stdout);
    putwchar(L'z');
    putwc(L'\n', stdout);
    while ((character = getwchar()) != L'\n')
        fputwc(character + 1, stdout);
    putwchar(L'\n');
    ungetwc(L'!', stdin);
    wprintf(L"%ls", fgetws(text, 100, stdin));
    count = fwscanf(stdin, L"%d %ls", &number, word);
    wprintf(L"%d %ls %d\n", count, word, number);
    wprintf(L"%d\n", wscanf(L"%d", &number) == EOF);
    char32_t wide = 0;
    char16_t half = 0;
    char bytes[8] = "";
    mbstate_t state;
    memset(&state, 0, sizeof state);
    wprintf(L"%d", (int)mbrtoc32(&wide, "A", 1, &state));
    wprintf(L"%d", (int)mbrtoc16(&half, "B", 1, &state));
    wprintf(L" %c%c", (int)wide, (int)half);
    wprintf(L" %d", (int)c32rtomb(bytes, U'C', &state));
    wprintf(L" %d", (int)c16rtomb(bytes + 1, u'D', &state));
    wprintf(L" %s\n", bytes);
    return 0;
}
