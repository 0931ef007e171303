/* Sums, differences, products and quotients of floating point: CASES of them, with operands of every class and some that lie near each
 * other. A line for each operation has a checksum of its results, which a host that has IEEE 754 in hardware gives, too; a result that
 * is no number counts as the one that the library gives. `tools/dt sweep floats` tries many more cases. */
#include <stdint.h>
#include <stdio.h>
#include <string.h>

#ifndef CASES
#define CASES 4000
#endif

static uint64_t state = 88172645463325252;

static uint64_t next(void)
{
    state ^= state << 13;
    state ^= state >> 7;
    state ^= state << 17;
    return state;
}

/* The layout of a type. */
struct shape {
    uint32_t bits;
    uint32_t bias;
    uint32_t top;
};

static const struct shape of_double = {52, 1023, 2047}, of_float = {23, 127, 255};

/* An operand: of a class that is drawn, or made of the operand before. */
static uint64_t draw(const struct shape *shape, uint64_t before)
{
    uint64_t one = (uint64_t)1 << shape->bits, head = next() % 2 * (shape->top + 1) * one, fraction = next() % one;
    switch (next() % 16) {
    case 0: return next() & (2 * (shape->top + 1) * one - 1);
    case 1: return head | fraction;
    case 2: return head | shape->top * one;
    case 3: return head | shape->top * one | fraction;
    case 4: return head;
    case 5: return head | (shape->bias + next() % 60) * one | (fraction & -(one >> shape->bits / 2));
    case 6: return head | (shape->bias + next() % 60) * one;
    case 7: return head | next() % 4 * one | (next() % 2 ? next() % 2 : one - 1);
    case 8: return head | (shape->top - 1 - next() % 7) * one | fraction;
    case 9: return before ^ head ^ (uint64_t)1 << next() % shape->bits;
    case 10: return (before ^ head) + next() % 2;
    case 11: return (before & -one) ^ head ^ fraction;
    case 12: return (before ^ head ^ fraction) & ~(one << 5);
    case 13: return head | (shape->bias + next() % 4) * one | (one - 1 - next() % 8);
    default: return head | (shape->bias - shape->bias / 4 + next() % (shape->bias / 2)) * one | fraction;
    }
}

static uint64_t bits_of_double(double value)
{
    uint64_t bits;
    memcpy(&bits, &value, sizeof bits);
#ifndef __DTHREADS__
    if (value != value)
        bits = UINT64_C(0x7ff8000000000000);
#endif
    return bits;
}

static uint32_t bits_of_float(float value)
{
    uint32_t bits;
    memcpy(&bits, &value, sizeof bits);
#ifndef __DTHREADS__
    if (value != value)
        bits = UINT32_C(0x7fc00000);
#endif
    return bits;
}

static double double_of(uint64_t bits)
{
    double value;
    memcpy(&value, &bits, sizeof value);
    return value;
}

static float float_of(uint32_t bits)
{
    float value;
    memcpy(&value, &bits, sizeof value);
    return value;
}

static void add(uint64_t *sum, uint64_t bits)
{
    *sum = (*sum ^ bits) * UINT64_C(0x9e3779b97f4a7c15);
    *sum ^= *sum >> 29;
}

static uint64_t sums[8];

static void try_doubles(void)
{
    uint64_t other = 1;
    for (long i = 0; i < CASES; i++) {
        uint64_t one = draw(&of_double, other);
        other = draw(&of_double, one);
        volatile double left = double_of(one), right = double_of(other);
        add(&sums[0], bits_of_double(left + right));
        add(&sums[1], bits_of_double(left - right));
        add(&sums[2], bits_of_double(left * right));
        add(&sums[3], bits_of_double(left / right));
    }
}

static void try_floats(void)
{
    uint32_t other = 1;
    for (long i = 0; i < CASES; i++) {
        uint32_t one = (uint32_t)draw(&of_float, other);
        other = (uint32_t)draw(&of_float, one);
        volatile float left = float_of(one), right = float_of(other);
        add(&sums[4], bits_of_float(left + right));
        add(&sums[5], bits_of_float(left - right));
        add(&sums[6], bits_of_float(left * right));
        add(&sums[7], bits_of_float(left / right));
    }
}

int main(void)
{
    static const char *const names[8] = {"double sum",  "double difference", "double product", "double quotient",
                                         "float sum",   "float difference",  "float product",  "float quotient"};
    try_doubles();
    try_floats();
    for (int i = 0; i < 8; i++)
        printf("%s %08x%08x\n", names[i], (unsigned)(sums[i] >> 32), (unsigned)sums[i]);
    return 0;
}
