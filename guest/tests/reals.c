/* Floating point as text and back: CASES numbers of every size, in three forms, with few digits and with all that a number needs; and
 * texts of few and of many digits, with their neighbours at the middle between two numbers. A line for each has a checksum, which a host
 * whose C library rounds correctly gives, too. */
#include <stdint.h>
#include <stdio.h>
#include <stdlib.h>
#include <string.h>

#ifndef CASES
#define CASES 1500
#endif

static uint64_t state = 88172645463325252;

static uint64_t next(void)
{
    state ^= state << 13;
    state ^= state >> 7;
    state ^= state << 17;
    return state;
}

static uint64_t sum;

static void add_text(const char *text)
{
    for (; *text; text++)
        sum = (sum ^ (unsigned char)*text) * UINT64_C(0x9e3779b97f4a7c15);
}

static void add_bits(const void *bits, size_t size)
{
    uint64_t word = 0;
    memcpy(&word, bits, size);
    sum = (sum ^ word) * UINT64_C(0x9e3779b97f4a7c15);
    sum ^= sum >> 31;
}

static void show(const char *name)
{
    printf("%s %08x%08x\n", name, (unsigned)(sum >> 32), (unsigned)sum);
    sum = 0;
}

/* A finite number: of any size, of a usual one, whole, or short. */
static double draw(void)
{
    uint64_t bits = next();
    double value;
    uint64_t shift = next() % 60;
    switch (next() % 4) {
    case 0:
        bits &= ~(UINT64_C(1) << 62);
        break;
    case 1:
        bits = (bits & UINT64_C(0x800fffffffffffff)) | (1023 - 60 + shift * 2) << 52;
        break;
    case 2:
        return (double)(int64_t)(bits >> shift);
    default:
        return (double)(int32_t)bits / (double)(1 << shift % 20);
    }
    memcpy(&value, &bits, sizeof value);
    return value;
}

static void print_numbers(void)
{
    char text[400];
    static const char forms[] = "efg";
    for (const char *form = forms; *form; form++) {
        char name[2] = {*form, 0};
        for (int i = 0; i < CASES; i++) {
            char directive[8] = {'%', '.', '*', *form, 0};
            int precision = (int)(next() % 20);
            snprintf(text, sizeof text, directive, precision, draw());
            add_text(text);
        }
        show(name);
    }
}

static void read_texts(void)
{
    char text[64];
    for (int i = 0; i < CASES; i++) {
        int precision = (int)(next() % 19);
        snprintf(text, sizeof text, "%.*e", precision, draw());
        double value = strtod(text, NULL);
        float small = strtof(text, NULL);
        add_bits(&value, sizeof value);
        add_bits(&small, sizeof small);
    }
    show("read");
    for (int i = 0; i < CASES; i++) {
        uint64_t digits = next();
        digits >>= next() % 50;
        int power = (int)(next() % 640) - 330;
        snprintf(text, sizeof text, "%u%09ue%d", (unsigned)(digits / 1000000000 % 1000000000), (unsigned)(digits % 1000000000), power);
        double value = strtod(text, NULL);
        add_bits(&value, sizeof value);
    }
    show("digits");
}

/* The middle between two floats is a double that has few digits: texts at it, below and above. */
static void read_middles(void)
{
    char text[128];
    for (int i = 0; i < CASES; i++) {
        uint32_t bits = (uint32_t)next() % 0x7f000000;
        float small;
        memcpy(&small, &bits, sizeof small);
        double middle = small;
        uint64_t word;
        memcpy(&word, &middle, sizeof word);
        word += (UINT64_C(1) << 28) + next() % 3 - 1;
        memcpy(&middle, &word, sizeof middle);
        snprintf(text, sizeof text, "%.17g", middle);
        small = strtof(text, NULL);
        add_bits(&small, sizeof small);
        snprintf(text, sizeof text, "%.40g", middle);
        small = strtof(text, NULL);
        add_bits(&small, sizeof small);
    }
    show("middles");
}

int main(void)
{
    print_numbers();
    read_texts();
    read_middles();
    return 0;
}
