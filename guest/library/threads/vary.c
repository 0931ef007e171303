/* The generator of what the library varies: SplitMix64's finaliser of the run's number and of how often it was drawn. */
#include "vary.h"

/* The library's draws, beside those of a schedule with the same number. */
#define OF_LIBRARY 100

enum {
    /* A thread that begins after turns enters the monitor fewer times than 2 to a power below this one. */
    DELAYS = 6
};

struct variation variation;

static uint64_t mix(uint64_t value)
{
    value += UINT64_C(0x9E3779B97F4A7C15);
    value = (value ^ value >> 30) * UINT64_C(0xBF58476D1CE4E5B9);
    value = (value ^ value >> 27) * UINT64_C(0x94D049BB133111EB);
    return value ^ value >> 31;
}

uint32_t vary_below(uint32_t count)
{
    return (uint32_t)(mix(variation.seed ^ ++variation.drawn) >> 32) % count;
}

void vary_begin(uint32_t number, uint32_t choices)
{
    static const enum beginning beginnings[] = {BEGIN_TOGETHER, BEGIN_TOGETHER, BEGIN_AT_ONCE, BEGIN_AFTER_TURNS};
    if (number == 0)
        return;
    variation = (struct variation){.number = number, .seed = mix(mix(number) ^ OF_LIBRARY), .left = choices ? choices : UINT64_MAX};
    variation.beginning = beginnings[vary_below(sizeof beginnings / sizeof *beginnings)];
}

bool vary_chooses(uint32_t cases)
{
    if (variation.left == 0)
        return false;
    variation.left--;
    return vary_below(cases) == 0;
}

uint32_t vary_delay(void)
{
    if (variation.beginning == BEGIN_TOGETHER || !vary_one_in(1))
        return TOGETHER;
    return variation.beginning == BEGIN_AT_ONCE ? 0 : vary_below(1U << vary_below(DELAYS));
}
