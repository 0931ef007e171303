/* printf prints what a Linux host prints: all digits that are asked for, every kind of argument, %n among them. */
#include <math.h>
#include <stddef.h>
#include <stdint.h>
#include <stdio.h>
#include <stdlib.h>
#include <string.h>

static const double values[] = {
    0, 1, -1, 0.1, 1.5, 2.5, 3.5, 1e22, 1e23, 123456789.125, 0.5, 5e-324, 2.2250738585072014e-308, 1.7976931348623157e308,
    3.14159265358979, 1e-5, 1e-4, 99999.95, 0.00012345, 1e15, 1e16, 1e17, NAN, -NAN, INFINITY, -INFINITY, 6.02214076e23, 0.3,
    2.0 / 3, 9.5, 0.05, 0.15, 0.25, 1234567.0,
};

static const char *const formats[] = {
    "%f", "%.0f", "%#.0f", "%e", "%.0e", "%.17g", "%.20g", "%g", "%.25f", "%a", "%.3a", "%A", "%+.3f", "% g", "%015.3f",
    "%-15.2e|", "%G", "%#g", "%.40g", "%.1f", "%.2f", "%10.3g|", "%.100f", "%.0a",
};

static uint64_t state = 12345;

/* Some number of any size. */
static double draw(void)
{
    double value;
    state = state * 6364136223846793005u + 1442695040888963407u;
    uint64_t bits = state ^ state >> 29;
    memcpy(&value, &bits, sizeof value);
    return value;
}

static void real_numbers(void)
{
    for (size_t i = 0; i < sizeof values / sizeof *values; i++)
        for (size_t j = 0; j < sizeof formats / sizeof *formats; j++) {
            printf("%s: ", formats[j]);
            printf(formats[j], values[i]);
            putchar('\n');
        }
    for (int i = 0; i < 60; i++) {
        double value = draw(), back;
        char text[40];
        if (value != value)
            continue;
        printf("%.17g %.16g %.15e %.6g\n", value, value, value, value);
        sprintf(text, "%.17g", value);
        back = strtod(text, NULL);
        if (back != value)
            printf("%s was read as another number\n", text);
    }
}

static void long_numbers(void)
{
    printf("%Lf %Le %Lg %.10Lf %.40Lf\n", 1.5L, 1e10L, 0.25L, -3.125L, 0.0009765625L);
    printf("%.0Lf %Lf %LG %020.3Lf|%-12.1Le|\n", 123456789012345678.0L, 0.0L, 1e-7L * 0, 2.5L, 1024.0L);
    printf("%d %Lf %s %Lf %d\n", 1, 2.0L, "three", 4.0L, 5);
}

static void other_kinds(void)
{
    int count = 0;
    signed char small = 0;
    long long large = 0;
    printf("abc%nd%hhne%lln\n", &count, &small, &large);
    printf("%d %d %lld\n", count, small, large);
    printf("%5d|%-5d|%05d|%+d|% d|%x|%#x|%#o|%.3d|%10.4d|%-10.4d|%u\n", 42, 42, 42, 42, 42, 255, 255, 8, 7, 7, 7, 4000000000u);
    printf("%lld|%llx|%hhd|%hd|%c|%s|%.2s|%5s|%-5s|%%\n", -1234567890123456789ll, 0x123456789abcdefull, 300, 70000, 'x', "hello", "hello",
           "ab", "ab");
    printf("%zu|%td|%jd|%X|%#X|%08.3f|%+08d\n", (size_t)9, (ptrdiff_t)-9, (intmax_t)-7, 0xbeef, 0xbeef, 3.14159, 77);
    printf("%2$s %1$d %3$.2f %2$s\n", 5, "two", 3.0);
    printf("%*d|%-*d|%.*f\n", 6, 42, 6, 42, 2, 3.14159);
    printf("%1$*2$d|%3$.*2$f\n", 5, 8, 1.5);
    printf("%ls|%lc|%.2ls|%8ls|\n", L"wide", L'w', L"wide", L"wide");
    printf("%s|%.3s|%10p|%p\n", (char *)NULL, (char *)NULL, NULL, (void *)0x1234);
    printf("[%.0d][%.0x][%#.0o][%+.0d]\n", 0, 0, 0, 0);
    printf("%d\n", snprintf(NULL, 0, "%.100f|%s", 1.0, "end"));
}

int main(void)
{
    real_numbers();
    long_numbers();
    other_kinds();
    return 0;
}
