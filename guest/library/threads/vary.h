/* What the library varies if the run has a number: choices that C and POSIX leave open.
 *
 * Each choice is a function of the number and of the choices before it, and is made in the monitor, so a run with a number repeats
 * exactly. After the last choice that the run may make, the library does what it does without a number. */
#ifndef VARY_H
#define VARY_H

#include <stdint.h>
#include <stdbool.h>
#include "../names.h"

/* How new threads begin, in all of a run. */
enum beginning {
    BEGIN_TOGETHER,
    BEGIN_AT_ONCE,
    BEGIN_AFTER_TURNS
};

/* The delay of a thread that begins as without a number: together with those that are created beside it. */
#define TOGETHER UINT32_MAX

struct variation {
    /* The run's number, or 0 if nothing varies. It stays as it was at the start. */
    uint32_t number;
    enum beginning beginning;
    /* What draws begin with, and how many there were. */
    uint64_t seed, drawn;
    /* Choices that may still be made. */
    uint64_t left;
};

extern struct variation variation;

/* Begins with the run's number, and with how many choices it may make at most: 0 for all. */
void vary_begin(uint32_t number, uint32_t choices);
/* True in one of so many cases: a choice. In the monitor, of a run with a number. */
bool vary_chooses(uint32_t cases);
/* A number below this one, each equally likely: what follows from a choice. In the monitor. */
uint32_t vary_below(uint32_t count);
/* How often the next new thread enters the monitor for nothing before it begins, or TOGETHER. In the monitor. */
uint32_t vary_delay(void);

/* Whether the run has a number. Memory is filled then, which is no choice, and may be asked everywhere. */
static inline bool varies(void)
{
    return variation.number != 0;
}

/* True in one of so many cases, and false without a number or after the last choice. In the monitor. */
static inline bool vary_one_in(uint32_t cases)
{
    return varies() && vary_chooses(cases);
}

#endif
