/* rand, random, drand48 and their kin, with the numbers that they give on Linux. As there, threads share one state of rand and random, which
 * is locked, and one of drand48, which isn't. */
#define _GNU_SOURCE
#include <stdlib.h>
#include "../threads/monitor.h"

/* A program may have functions of these names. */
#pragma weak rand_r
#pragma weak random
#pragma weak srandom
#pragma weak initstate
#pragma weak setstate

enum {
    WORDS = 32
};

static int32_t words[WORDS];
static struct random_data shared;

static void begin(void)
{
    if (!shared.state)
        initstate_r(1, (char *)words, sizeof words, &shared);
}

long random(void)
{
    int32_t number;
    monitor_enter();
    begin();
    random_r(&shared, &number);
    monitor_leave();
    return number;
}

void srandom(unsigned seed)
{
    monitor_enter();
    begin();
    srandom_r(seed, &shared);
    monitor_leave();
}

/* Another state; the address of the one before, or NULL. */

char *initstate(unsigned seed, char *bytes, size_t size)
{
    monitor_enter();
    begin();
    char *old = (char *)(shared.state - 1);
    int code = initstate_r(seed, bytes, size, &shared);
    monitor_leave();
    return code == 0 ? old : NULL;
}

char *setstate(char *bytes)
{
    monitor_enter();
    begin();
    char *old = (char *)(shared.state - 1);
    int code = setstate_r(bytes, &shared);
    monitor_leave();
    return code == 0 ? old : NULL;
}

int rand(void)
{
    return (int)random();
}

void srand(unsigned seed)
{
    srandom(seed);
}

/* The next number of a generator whose state is one word: its upper bits. */
static unsigned step(unsigned *state)
{
    *state = *state * 1103515245u + 12345u;
    return *state / 65536;
}

int rand_r(unsigned *state)
{
    unsigned number = step(state) % 2048;
    number = number << 10 ^ step(state) % 1024;
    return (int)(number << 10 ^ step(state) % 1024);
}

/* Of 48 bits. */

static struct drand48_data common;

double drand48(void)
{
    double number;
    drand48_r(&common, &number);
    return number;
}

double erand48(unsigned short state[3])
{
    double number;
    erand48_r(state, &common, &number);
    return number;
}

long lrand48(void)
{
    long number;
    lrand48_r(&common, &number);
    return number;
}

long nrand48(unsigned short state[3])
{
    long number;
    nrand48_r(state, &common, &number);
    return number;
}

long mrand48(void)
{
    long number;
    mrand48_r(&common, &number);
    return number;
}

long jrand48(unsigned short state[3])
{
    long number;
    jrand48_r(state, &common, &number);
    return number;
}

void srand48(long seed)
{
    srand48_r(seed, &common);
}

unsigned short *seed48(unsigned short state[3])
{
    seed48_r(state, &common);
    return common.__old_x;
}

void lcong48(unsigned short numbers[7])
{
    lcong48_r(numbers, &common);
}
