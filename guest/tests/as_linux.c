/* Numbers of rand, random, drand48 and kin, and the order of qsort: the wanted output is what a build of this file prints on Linux. */
#define _GNU_SOURCE
#include <stdint.h>
#include <stdio.h>
#include <stdlib.h>
#include <string.h>

enum {
    COUNT = 1000
};

struct element {
    int key, place;
    unsigned char rest[3];
};

static int by_key(const void *one, const void *other)
{
    return ((const struct element *)one)->key - ((const struct element *)other)->key;
}

static int by_sign(const void *one, const void *other, void *sign)
{
    return *(int *)sign * (*(const int64_t *)one > *(const int64_t *)other ? 1 : -1);
}

/* Equal elements stay in their order. */
static void sorts(void)
{
    static struct element all[COUNT];
    static int64_t numbers[COUNT + 1];
    uint32_t sum = 0;
    int sign = -1;
    for (int i = 0; i < COUNT; i++)
        all[i] = (struct element){rand() % 50, i, {(unsigned char)i}};
    qsort(all, COUNT, sizeof *all, by_key);
    for (int i = 0; i < COUNT; i++)
        sum = sum * 31 + (uint32_t)(all[i].place + all[i].rest[0]);
    printf("%u\n", sum);
    for (int i = 0; i <= COUNT; i++)
        numbers[i] = (int64_t)rand() << 20 | i;
    qsort_r(numbers, COUNT + 1, sizeof *numbers, by_sign, &sign);
    for (int i = 0; i <= COUNT; i++)
        sum = sum * 31 + (uint32_t)(numbers[i] >> 13);
    qsort(numbers, 1, sizeof *numbers, by_key);
    printf("%u\n", sum);
}

static void show(long number)
{
    printf("%ld\n", number);
}

static void common_state(void)
{
    static char state[64];
    unsigned own = 3;
    show(rand());
    srand(7);
    show(random());
    char *old = initstate(5, state, sizeof state);
    show(random());
    setstate(old);
    show(random());
    show(rand_r(&own));
    show(rand_r(&own));
}

static void states(size_t size)
{
    static char state[256], other[128];
    struct random_data data;
    int32_t number;
    memset(&data, 0, sizeof data);
    initstate_r((unsigned)size, state, size, &data);
    for (int i = 0; i < 100; i++)
        random_r(&data, &number);
    show(number);
    initstate_r(7, other, sizeof other, &data);
    random_r(&data, &number);
    show(number);
    setstate_r(state, &data);
    random_r(&data, &number);
    show(number);
    srandom_r(99, &data);
    random_r(&data, &number);
    show(number);
}

static void of_48_bits(void)
{
    unsigned short state[3] = {1, 2, 3}, numbers[7] = {1, 2, 3, 4, 5, 6, 7};
    printf("%.17g\n", drand48());
    srand48(12345);
    printf("%.17g\n", drand48());
    show(lrand48());
    show(mrand48());
    printf("%.17g\n", erand48(state));
    show(nrand48(state));
    show(jrand48(state));
    lcong48(numbers);
    show(lrand48());
    show(seed48(state)[0]);
    show(lrand48());
}

int main(void)
{
    static const size_t sizes[] = {8, 32, 64, 128, 256};
    sorts();
    common_state();
    for (int i = 0; i < 5; i++)
        states(sizes[i]);
    of_48_bits();
    return 0;
}
