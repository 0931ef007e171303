/* Random numbers of states that the program keeps: random_r and drand48_r of GNU, with the numbers that they give on Linux. */
#define _GNU_SOURCE
#include <errno.h>
#include <stdint.h>
#include <stdlib.h>
#include <string.h>

/* A program may have functions of these names. */
#pragma weak random_r
#pragma weak srandom_r
#pragma weak initstate_r
#pragma weak setstate_r
#pragma weak drand48_r
#pragma weak erand48_r
#pragma weak lrand48_r
#pragma weak nrand48_r
#pragma weak mrand48_r
#pragma weak jrand48_r
#pragma weak srand48_r
#pragma weak seed48_r
#pragma weak lcong48_r

static int refuse(int code)
{
    errno = code;
    return -1;
}

/* Kinds of states by their size: words, and the distance of the two that are added. The first kind has one word. */
enum {
    KINDS = 5,
    /* Numbers that are drawn and dropped for each word of a new state. */
    DROPPED = 10
};
static const struct {
    size_t bytes;
    int words, distance;
} kinds[KINDS] = {{8, 0, 0}, {32, 7, 3}, {64, 15, 1}, {128, 31, 3}, {256, 63, 1}};

/* In front of a state, its kind and the place of its last word. */
static void note_kind(struct random_data *data)
{
    if (data->state)
        data->state[-1] = data->rand_type == 0 ? 0 : KINDS * (int32_t)(data->rptr - data->state) + data->rand_type;
}

static void use_kind(struct random_data *data, int32_t *state, int kind)
{
    data->state = state;
    data->rand_type = kind;
    data->rand_deg = kinds[kind].words;
    data->rand_sep = kinds[kind].distance;
    data->end_ptr = state + kinds[kind].words;
}

int random_r(struct random_data *restrict data, int32_t *restrict number)
{
    if (!data || !number)
        return refuse(EINVAL);
    int32_t *state = data->state;
    if (data->rand_type == 0) {
        state[0] = (int32_t)(((uint32_t)state[0] * 1103515245u + 12345u) & 0x7fffffff);
        *number = state[0];
        return 0;
    }
    uint32_t sum = *data->fptr = (int32_t)((uint32_t)*data->fptr + (uint32_t)*data->rptr);
    *number = (int32_t)(sum >> 1);
    if (++data->fptr == data->end_ptr)
        data->fptr = state;
    if (++data->rptr == data->end_ptr)
        data->rptr = state;
    return 0;
}

int srandom_r(unsigned seed, struct random_data *data)
{
    if (!data || data->rand_type < 0 || data->rand_type >= KINDS)
        return refuse(EINVAL);
    int32_t *state = data->state, word = seed ? (int32_t)seed : 1, dropped;
    state[0] = word;
    for (int i = 1; i < data->rand_deg; i++) {
        word = 16807 * (word % 127773) - 2836 * (word / 127773);
        if (word < 0)
            word += 2147483647;
        state[i] = word;
    }
    data->fptr = state + data->rand_sep;
    data->rptr = state;
    for (int i = 0; i < data->rand_deg * DROPPED; i++)
        random_r(data, &dropped);
    return 0;
}

int initstate_r(unsigned seed, char *restrict bytes, size_t size, struct random_data *restrict data)
{
    int kind = KINDS - 1;
    if (!data || size < kinds[0].bytes)
        return refuse(EINVAL);
    while (size < kinds[kind].bytes)
        kind--;
    note_kind(data);
    use_kind(data, (int32_t *)bytes + 1, kind);
    srandom_r(seed, data);
    note_kind(data);
    return 0;
}

int setstate_r(char *restrict bytes, struct random_data *restrict data)
{
    int32_t *state = (int32_t *)bytes + 1;
    if (!data || !bytes || state[-1] < 0)
        return refuse(EINVAL);
    int kind = state[-1] % KINDS, rear = state[-1] / KINDS;
    note_kind(data);
    use_kind(data, state, kind);
    if (kind != 0) {
        data->rptr = state + rear;
        data->fptr = state + (rear + data->rand_sep) % data->rand_deg;
    }
    return 0;
}

/* A state of 48 bits in three words. */

static void begin(struct drand48_data *data)
{
    if (!data->__init) {
        data->__a = UINT64_C(0x5deece66d);
        data->__c = 0xb;
        data->__init = 1;
    }
}

static uint64_t next(unsigned short words[3], struct drand48_data *data)
{
    begin(data);
    uint64_t state = (uint64_t)words[2] << 32 | (uint32_t)words[1] << 16 | words[0];
    state = state * data->__a + data->__c;
    words[0] = (unsigned short)state;
    words[1] = (unsigned short)(state >> 16);
    words[2] = (unsigned short)(state >> 32);
    return state & UINT64_C(0xffffffffffff);
}

int erand48_r(unsigned short words[3], struct drand48_data *data, double *number)
{
    *number = (double)next(words, data) * 0x1p-48;
    return 0;
}

int drand48_r(struct drand48_data *restrict data, double *restrict number)
{
    return erand48_r(data->__x, data, number);
}

int nrand48_r(unsigned short words[3], struct drand48_data *data, long *number)
{
    *number = (long)(next(words, data) >> 17);
    return 0;
}

int lrand48_r(struct drand48_data *restrict data, long *restrict number)
{
    return nrand48_r(data->__x, data, number);
}

int jrand48_r(unsigned short words[3], struct drand48_data *data, long *number)
{
    *number = (int32_t)(uint32_t)(next(words, data) >> 16);
    return 0;
}

int mrand48_r(struct drand48_data *restrict data, long *restrict number)
{
    return jrand48_r(data->__x, data, number);
}

int srand48_r(long seed, struct drand48_data *data)
{
    unsigned short words[3] = {0x330e, (unsigned short)seed, (unsigned short)((unsigned long)seed >> 16)};
    return seed48_r(words, data);
}

int seed48_r(unsigned short words[3], struct drand48_data *data)
{
    memcpy(data->__old_x, data->__x, sizeof data->__x);
    memcpy(data->__x, words, sizeof data->__x);
    data->__init = 0;
    begin(data);
    return 0;
}

int lcong48_r(unsigned short words[7], struct drand48_data *data)
{
    memcpy(data->__x, words, sizeof data->__x);
    data->__a = (uint64_t)words[5] << 32 | (uint32_t)words[4] << 16 | words[3];
    data->__c = words[6];
    data->__init = 1;
    return 0;
}
