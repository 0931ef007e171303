/* Work that four threads of OpenMP share, for what runs side by side: KIND is loop, dynamic or tasks. */
#include <stdio.h>

enum { COUNT = 16000, PARTS = 16 };

static unsigned sums[PARTS];

static unsigned hashed(unsigned number)
{
    for (int i = 0; i < 500; i++)
        number = number * 1664525u + 1013904223u;
    return number;
}

static void loop(void)
{
    unsigned sum = 0;
#pragma omp parallel for reduction(+ : sum)
    for (int i = 0; i < COUNT; i++)
        sum += hashed(i);
    sums[0] = sum;
}

static void dynamic(void)
{
    unsigned sum = 0;
#pragma omp parallel for schedule(dynamic, COUNT / PARTS) reduction(+ : sum)
    for (int i = 0; i < COUNT; i++)
        sum += hashed(i);
    sums[0] = sum;
}

static void tasks(void)
{
#pragma omp parallel
#pragma omp single
    for (int part = 0; part < PARTS; part++)
#pragma omp task
        for (int i = part * (COUNT / PARTS); i < (part + 1) * (COUNT / PARTS); i++)
            sums[part] += hashed(i);
}

int main(void)
{
    KIND();
    unsigned sum = 0;
    for (int i = 0; i < PARTS; i++)
        sum += sums[i];
    printf("%u\n", sum);
    return 0;
}
