/* Numbers of 32 bits are ints, so that a pointer to one may look at the other, and the formats of inttypes.h fit. */
#include <inttypes.h>
#include <stdint.h>
#include <stdio.h>

#define NAME(value) _Generic((value), int: "int", unsigned: "unsigned", long: "long", unsigned long: "unsigned long", default: "other")

/* A compiler that takes the two for different objects answers 1. */
__attribute__((noinline)) static int alias(int *one, uint32_t *other)
{
    *one = 1;
    *other = 2;
    return *one;
}

int main(void)
{
    uint32_t word = 0;
    uint_least32_t least = 0;
    printf("%s %s %s\n", NAME(word), NAME((int32_t)0), NAME(least));
    printf("%s %s %s %s\n", NAME(INT32_C(1)), NAME(UINT32_C(1)), NAME(INT32_MAX), NAME(UINT32_MAX));
    printf("%d\n", alias((int *)&word, &word));
    printf("%" PRIu32 " %" PRId32 " %" PRIx32 "\n", UINT32_MAX, INT32_MIN, word);
    if (sscanf("77", "%" SCNu32, &word) == 1)
        printf("%" PRIuLEAST32 "\n", word);
    return 0;
}
