/* scanf, strtod and strtof read what a Linux host reads: the nearest number, long double too. */
#include <errno.h>
#include <stdint.h>
#include <stdio.h>
#include <stdlib.h>
#include <string.h>
#include <wchar.h>

static const char *const numbers[] = {
    "1", "  -2.5e3x", "1e", "1e+", "0x", "0x.", "0x1p", "0x1.8p1z", ".5", ".", "5.", "-.5e-3", "inf", "infinit", "INFINITY",
    "nan", "nan(abc)", "nan(", "-nan", "1e400", "-1e400", "1e-400", "4.9e-324", "2.4703282292062327e-324",
    "2.4703282292062328e-324", "2.2250738585072011e-308", "1.7976931348623158e308", "1.7976931348623159e308", "0.1e1",
    "123456789012345678901234567890", "9007199254740993", "9007199254740993.0000000000000000000000000000000000000000001",
    "0x1.00000000000008p0", "0x1.00000000000008000001p0", "0x1p-1074", "0x1p-1075", "0x1.1p-1075", "0x1p1024", "1e38",
    "3.4028235e38", "3.4028236e38", "1.17549435e-38", "1e-45", "7e-46", "7.1e-46",
    "0.000000000000000000000000000000000000000000000000000000001e60", "00000000000000000000000000012", "0e999999999999",
    "1e99999999999", "abc", "+", "-", "+.", "1.5.2",
};

static void show_number(const char *text)
{
    char *end;
    uint64_t bits;
    uint32_t half;
    errno = 0;
    double value = strtod(text, &end);
    memcpy(&bits, &value, sizeof bits);
    printf("%s: %016llx, rest '%s'%s\n", text, (unsigned long long)bits, end, errno == ERANGE ? ", out of range" : "");
    errno = 0;
    float number = strtof(text, &end);
    memcpy(&half, &number, sizeof half);
    printf("  %08x, rest '%s'%s\n", (unsigned)half, end, errno == ERANGE ? ", out of range" : "");
}

static int a, b, n;
static unsigned x;
static short h;
static long long l;
static float f;
static double g;
static char c, s[50], q[20];

static void clear(void)
{
    a = b = n = -1;
    x = 0;
    h = 0;
    l = 0;
    f = 0;
    g = 0;
    c = '?';
    memset(s, 0, sizeof s);
}

#define SCAN(...) \
    do { \
        clear(); \
        int count = sscanf(__VA_ARGS__); \
        printf("%d: %d %d %d %x %d %lld %g %g '%c' '%s'\n", count, a, b, n, x, h, l, f, g, c, s); \
    } while (0)

static void scan_strings(void)
{
    SCAN("12 34", "%d%d%n", &a, &b, &n);
    SCAN("12,34", "%d,%d", &a, &b);
    SCAN("12;34", "%d,%d", &a, &b);
    SCAN("0x1f", "%i", &a);
    SCAN("017", "%i", &a);
    SCAN("0x1f", "%x", &x);
    SCAN("0xg", "%x%c", &x, &c);
    SCAN("abc", "%d", &a);
    SCAN("", "%d", &a);
    SCAN("  ", "%d", &a);
    SCAN("3.5 2.25", "%f%lf", &f, &g);
    SCAN("1e5x", "%lf%c", &g, &c);
    SCAN("1ex", "%lf%c", &g, &c);
    SCAN("nan inf", "%f%lf", &f, &g);
    SCAN("hello world", "%s", s);
    SCAN("hello", "%3s%c", s, &c);
    SCAN("abc123", "%[a-z]%d", s, &a);
    SCAN("abc]x", "%[]abc]%c", s, &c);
    SCAN("123abc", "%[^a-z]%c", s, &c);
    SCAN("a-b", "%[a-]", s);
    SCAN("12345", "%2d%3d", &a, &b);
    SCAN("-9223372036854775808", "%lld", &l);
    SCAN("99999", "%hd", &h);
    SCAN("x y", "%c %c", &c, s);
    SCAN("x", "%*c%d", &a);
    SCAN("50%", "%d%%%n", &a, &n);
    SCAN("abc", "%2c", s);
    SCAN("ab", "%3c", s);
    SCAN("1 2", "%*d%d", &a);
    SCAN("0", "%i%n", &a, &n);
    SCAN("+5", "%d", &a);
    SCAN("-", "%d", &a);
    SCAN("0x", "%i", &a);
    SCAN("1.5e", "%lf", &g);
    SCAN("0x1.8p2", "%lf", &g);
    SCAN("infinity", "%lf%n", &g, &n);
    SCAN("infin", "%lf%n", &g, &n);
    SCAN("5 6", "%2$d %1$d", &a, &b);
    SCAN("a b", "%s%*s%s", s, q);
    SCAN("12 abc", "%d %n", &a, &n);
    SCAN("abcdef", "abc%n", &n);
    SCAN("\t\n 7", "%d", &a);
    SCAN("7abc", "%dabc%d", &a, &b);
    SCAN("0b11", "%i", &a);
}

static void scan_other_kinds(void)
{
    char *word = NULL;
    wchar_t wide[20];
    long double number = 0;
    void *pointer = NULL;
    unsigned char small = 0;
    size_t size = 0;
    intmax_t greatest = 0;
    printf("%d", sscanf("word more", "%ms", &word));
    printf(" %s\n", word);
    free(word);
    printf("%d", sscanf("abc def", "%m[a-c]", &word));
    printf(" %s\n", word);
    free(word);
    printf("%d", sscanf("wide text", "%ls", wide));
    printf(" %ls\n", wide);
    printf("%d", sscanf("3.25 -1e-3", "%Lf", &number));
    printf(" %.5Lf\n", number);
    printf("%d", sscanf("0x1234 300 77 -88", "%p%hhu%zu%jd", &pointer, &small, &size, &greatest));
    printf(" %p %u %zu %jd\n", pointer, small, size, greatest);
    printf("%.10Lf %Lg\n", strtold("-12.0009765625", NULL), strtold("0x1.8p-3", NULL));
    printf("%g %g\n", atof("2.5x"), wcstod(L"1.25z", NULL));
}

static void scan_input(void)
{
    int count;
    while ((count = scanf("%d", &a)) == 1)
        printf("read %d\n", a);
    printf("%d\n", count);
    count = scanf("%s", s);
    printf("%d %s\n", count, s);
    count = scanf("%d%d", &a, &b);
    printf("%d %d, ended %d\n", count, a, feof(stdin) != 0);
    printf("%d\n", scanf("%d", &a));
}

int main(void)
{
    for (size_t i = 0; i < sizeof numbers / sizeof *numbers; i++)
        show_number(numbers[i]);
    scan_strings();
    scan_other_kinds();
    scan_input();
    return 0;
}
