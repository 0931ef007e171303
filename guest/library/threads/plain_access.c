/* Which object the program accesses between two fences: its own code does it, so its instructions are read. Formats and numbers are
 * those of the ISA. */
#include "plain_access.h"

enum {
    LOAD = 0x03,
    STORE = 0x23,
    ADD_IMMEDIATE = 0x13,
    ADD = 0x33,
    LOAD_UPPER = 0x37,
    JUMP_AND_LINK = 0x6f,
    ADD_UPPER = 0x17,
    /* Instructions between two fences at most, the macro's own included. */
    REACH = 12,
    RETURN_ADDRESS = 1
};

void __dthreads_fence(void);

struct walk {
    uint32_t values[32];
    /* A bit for each register whose value isn't known. */
    uint32_t unknown;
};

static uint32_t target_of(uint32_t word)
{
    return word >> 7 & 31;
}

static uint32_t first_of(uint32_t word)
{
    return word >> 15 & 31;
}

static uint32_t second_of(uint32_t word)
{
    return word >> 20 & 31;
}

static uint32_t kind_of(uint32_t word)
{
    return word >> 12 & 7;
}

static uint32_t immediate(uint32_t word)
{
    return (uint32_t)((int32_t)word >> 20);
}

static uint32_t store_immediate(uint32_t word)
{
    return (uint32_t)((int32_t)word >> 25) << 5 | target_of(word);
}

static uint32_t jump_immediate(uint32_t word)
{
    return (uint32_t)((int32_t)word >> 31) << 20 | (word & 0xff000) | (word >> 9 & 0x800) | (word >> 20 & 0x7fe);
}

/* Whether these are the call of a fence, as the linker left it. */
static bool is_fence(const uint32_t *at)
{
    uint32_t here = (uint32_t)(uintptr_t)at, fence = (uint32_t)(uintptr_t)__dthreads_fence;
    if ((at[0] & 0xfff) == (JUMP_AND_LINK | RETURN_ADDRESS << 7))
        return here + jump_immediate(at[0]) == fence;
    return (at[0] & 0xfff) == (ADD_UPPER | RETURN_ADDRESS << 7) && here + (at[0] & ~UINT32_C(0xfff)) + immediate(at[1]) == fence;
}

/* What an instruction does to the registers. */
static void step(struct walk *walk, uint32_t word)
{
    uint32_t opcode = word & 0x7f, target = target_of(word), needs = 0, value = 0;
    bool is_known = true;
    if (opcode == LOAD_UPPER) {
        value = word & ~UINT32_C(0xfff);
    } else if (opcode == ADD_IMMEDIATE && kind_of(word) == 0) {
        needs = 1U << first_of(word);
        value = walk->values[first_of(word)] + immediate(word);
    } else if (opcode == ADD && word >> 25 == 0 && kind_of(word) == 0) {
        needs = 1U << first_of(word) | 1U << second_of(word);
        value = walk->values[first_of(word)] + walk->values[second_of(word)];
    } else {
        is_known = false;
    }
    if (target == 0)
        return;
    is_known = is_known && !(walk->unknown & needs);
    walk->values[target] = value;
    walk->unknown = is_known ? walk->unknown & ~(1U << target) : walk->unknown | 1U << target;
}

static bool is_access(uint32_t word)
{
    uint32_t opcode = word & 0x7f;
    return (opcode == LOAD && kind_of(word) != 3 && kind_of(word) < 6) || (opcode == STORE && kind_of(word) < 3);
}

/* Whether a fence follows, after instructions that access no memory and don't leave. */
static bool reaches_fence(const uint32_t *at)
{
    for (uint32_t i = 0; i < REACH; i++) {
        uint32_t opcode = at[i] & 0x7f;
        /* The macro's own store of ra. */
        if (opcode == STORE && is_fence(&at[i + 1]))
            return true;
        if (opcode != LOAD_UPPER && opcode != ADD_IMMEDIATE && opcode != ADD)
            return false;
    }
    return false;
}

static bool read_access(const struct walk *walk, const uint32_t *at, struct plain_access *access)
{
    uint32_t word = *at, base = first_of(word);
    access->place = at;
    access->is_store = (word & 0x7f) == STORE;
    access->object = (const void *)(uintptr_t)(walk->values[base] + (access->is_store ? store_immediate(word) : immediate(word)));
    access->size = 1U << (kind_of(word) & 3);
    return !(walk->unknown >> base & 1);
}

bool plain_access_find(const uint32_t *registers, struct plain_access *access)
{
    /* (behind the macro's two instructions that take ra and sp back) */
    const uint32_t *at = (const uint32_t *)(uintptr_t)registers[0] + 2;
    struct walk walk;
    for (uint32_t i = 0; i < 32; i++)
        walk.values[i] = registers[i];
    walk.values[0] = 0;
    walk.unknown = 0;
    for (uint32_t i = 0; i < REACH; i++) {
        uint32_t opcode = at[i] & 0x7f;
        if (is_access(at[i]) && reaches_fence(&at[i + 1]))
            return read_access(&walk, &at[i], access);
        /* What is stored may be loaded from an object that isn't atomic. */
        if (!is_access(at[i]) && opcode != LOAD_UPPER && opcode != ADD_IMMEDIATE && opcode != ADD)
            return false;
        if (opcode != STORE)
            step(&walk, at[i]);
    }
    return false;
}
