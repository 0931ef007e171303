/* Copies, fills, comparisons and searches of every short length at every offset, beside plain loops over bytes, and at the end of a
 * page behind which there is no memory. */
#include <stdint.h>
#include <stdio.h>
#include <string.h>
#include <sys/mman.h>

enum { SIZE = 192, LONGEST = 90, OFFSETS = 5, PAGE = 4096 };

static unsigned char from[SIZE], to[SIZE], wanted[SIZE];
static int wrong;

static void check(int is_right, const char *what, int one, int other, int length)
{
    if (!is_right && wrong++ < 10)
        printf("%s: offsets %d and %d, length %d\n", what, one, other, length);
}

static void plain_copy(unsigned char *target, const unsigned char *source, int length)
{
    for (int i = 0; i < length; i++)
        target[i] = source[i];
}

static int is_same(const unsigned char *one, const unsigned char *other, int length)
{
    for (int i = 0; i < length; i++)
        if (one[i] != other[i])
            return 0;
    return 1;
}

static void check_copy(int source, int target, int length)
{
    for (int i = 0; i < SIZE; i++)
        to[i] = wanted[i] = (unsigned char)(200 + i);
    plain_copy(wanted + target, from + source, length);
    memcpy(to + target, from + source, (size_t)length);
    check(is_same(to, wanted, SIZE), "memcpy", source, target, length);
}

/* Within one array, in both directions. */
static void check_move(int source, int target, int length)
{
    unsigned char held[SIZE];
    for (int i = 0; i < SIZE; i++)
        to[i] = wanted[i] = (unsigned char)(i * 5 + 1);
    plain_copy(held, wanted + source, length);
    plain_copy(wanted + target, held, length);
    memmove(to + target, to + source, (size_t)length);
    check(is_same(to, wanted, SIZE), "memmove", source, target, length);
}

static void check_fill(int target, int length)
{
    for (int i = 0; i < SIZE; i++)
        to[i] = wanted[i] = (unsigned char)i;
    for (int i = 0; i < length; i++)
        wanted[target + i] = 0xa5;
    memset(to + target, 0x1a5, (size_t)length);
    check(is_same(to, wanted, SIZE), "memset", target, 0, length);
}

static int sign(int value)
{
    return (value > 0) - (value < 0);
}

/* Ranges that differ at one place, or nowhere. */
static void check_compare(int one, int other, int length, int place)
{
    memset(to, 0x80, SIZE);
    memset(wanted, 0x80, SIZE);
    int difference = place < length ? 0x7f - 0x80 : 0;
    to[one + place] = 0x7f;
    check(sign(memcmp(to + one, wanted + other, (size_t)length)) == difference, "memcmp", one, other, length);
    check(sign(memcmp(wanted + other, to + one, (size_t)length)) == -difference, "memcmp", other, one, length);
}

/* Texts with bytes of every kind, whose ends and differences lie at all places. */
static void check_texts(int one, int other, int length, int place)
{
    memset(to, 0x81, SIZE);
    memset(wanted, 0x81, SIZE);
    to[one + length] = wanted[other + length] = 0;
    char *left = (char *)to + one, *right = (char *)wanted + other;
    check(strlen(left) == (size_t)length, "strlen", one, other, length);
    check(strcmp(left, right) == 0, "strcmp", one, other, length);
    check(strchr(left, 'b') == NULL && strchr(left, 0) == left + length, "strchr", one, other, length);
    left[place] = 'b';
    int difference = place < length ? 'b' - 0x81 : 'b';
    check(sign(strcmp(left, right)) == sign(difference) && sign(strcmp(right, left)) == -sign(difference), "strcmp", one, other, place);
    check(strchr(left, 'b') == left + place, "strchr", one, place, length);
    check(memchr(left, 'b', (size_t)length + 1) == left + place, "memchr", one, place, length);
    check(memchr(left, 'b', (size_t)place) == NULL, "memchr", one, place, place);
    check(memchr(left, 0x281, 1) == (place == 0 || length == 0 ? NULL : left), "memchr", one, place, 1);
}

/* Ranges that end where the memory ends. */
static void check_ends(char *end, int length)
{
    memset(to, 'a', SIZE);
    memset(end - SIZE, 'a', SIZE);
    char *range = end - length;
    check(memcmp(range, to + 1, (size_t)length) == 0 && memcmp(to + 1, range, (size_t)length) == 0, "memcmp at the end", 0, 0, length);
    check(memchr(range, 'b', (size_t)length) == NULL, "memchr at the end", 0, 0, length);
    memcpy(to, range, (size_t)length);
    memmove(range, to, (size_t)length);
    memset(range, 'a', (size_t)length);
    end[-1] = 0;
    to[length] = 0;
    check(strlen(range) == (size_t)length - 1 && strchr(range, 'b') == NULL, "a text at the end", 0, 0, length);
    check(strcmp(range, (char *)to + 1) == 0 && strcmp((char *)to + 1, range) == 0, "strcmp at the end", 0, 0, length);
}

int main(void)
{
    for (int i = 0; i < SIZE; i++)
        from[i] = (unsigned char)(i * 7 + 3);
    for (int length = 0; length < LONGEST; length++)
        for (int target = 0; target < OFFSETS; target++) {
            check_fill(target, length);
            for (int source = 0; source < OFFSETS; source++) {
                check_copy(source, target, length);
                check_move(source + 3, target + 3, length);
                check_move(source + 40, target + 3, length);
                check_move(source + 3, target + 40, length);
                check_compare(source, target, length, length * 7 / 9);
                check_compare(source, target, length, length);
            }
        }
    for (int length = 0; length < 40; length++)
        for (int place = 0; place <= length; place++)
            for (int one = 0; one < 17; one += 4)
                for (int other = 0; other < OFFSETS; other++)
                    check_texts(one, other, length, place);
    char *page = mmap(NULL, PAGE, PROT_READ | PROT_WRITE, MAP_PRIVATE | MAP_ANONYMOUS, -1, 0);
    for (int length = 1; length < LONGEST; length++)
        check_ends(page + PAGE, length);
    printf("wrong %d\n", wrong);
    return 0;
}
