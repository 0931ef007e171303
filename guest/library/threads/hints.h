/* Hints for tools that look for faults: instructions without effect, beside those of dthreads.h.
 *
 * What a thread loads and stores between hint_enter and hint_leave is the library's own, and is no race of the program. Pairs may nest.
 * The others name an object, which is any word. Their instruction is SLTI with x0 as its target: the kind is its immediate, and the
 * object is in its register. They are given within such a pair, or say themselves what memory they are about, so the compiler may move
 * plain accesses across them. */
#ifndef HINTS_H
#define HINTS_H

#include <string.h>
#include <dthreads.h>

enum hint {
    /* Where in the program the library was called: this goes for all later hints of the thread, up to the next one. */
    HINT_CALLER = 1,
    /* How many bytes the thread's next HINT_DEAD, HINT_ATOMIC_LOAD or HINT_ATOMIC_STORE is about. */
    HINT_LENGTH = 2,
    /* The thread with this number in the order of pthread_create begins here. */
    HINT_BEGIN = 3,
    /* The bytes at this address are no longer the program's. */
    HINT_DEAD = 4,
    HINT_ATOMIC_LOAD = 5,
    /* Also of an operation that loads and stores. */
    HINT_ATOMIC_STORE = 6,
    /* A relaxed load has come, and a relaxed store comes. */
    HINT_SEEN_ACQUIRE = 7,
    HINT_FENCE_RELEASE = 8,
    HINT_FENCE_ACQUIRE = 9,
    HINT_RELAXED_RELEASE = 10,
    /* The thread has a lock from now on, alone or shared: by a call that would have waited, or by one that doesn't wait. */
    HINT_LOCK = 16,
    HINT_SHARE = 17,
    HINT_TRY_LOCK = 18,
    HINT_TRY_SHARE = 19,
    HINT_UNLOCK = 20,
    /* What a program may not do. */
    HINT_UNLOCK_OF_ANOTHERS = 32,
    HINT_UNLOCK_OF_FREE = 33,
    HINT_END_WITH_LOCK = 34,
    HINT_DESTROY_OF_HELD = 35,
    HINT_DESTROY_OF_WAITED = 36,
    HINT_WAIT_WITHOUT_LOCK = 37,
    HINT_WAIT_WITH_ANOTHER = 38,
    HINT_TAKEN_TWICE = 39,
    HINT_WRITE_BY_READER = 40
};

static inline __attribute__((always_inline)) void hint_word(enum hint kind, uintptr_t word)
{
    __asm__ volatile("slti x0, %0, %1" : : "r"(word), "i"(kind));
}

static inline __attribute__((always_inline)) void hint_object(enum hint kind, const volatile void *object)
{
    hint_word(kind, (uintptr_t)object);
}

static inline __attribute__((always_inline)) void hint_caller(const void *place)
{
    hint_object(HINT_CALLER, place);
}

/* The instruction that called the function in which this stands: all instructions have four bytes. */
#define CALL_PLACE ((const void *)((uintptr_t)__builtin_return_address(0) - 4))

/* In a function that a program calls: the call is the place. */
static inline __attribute__((always_inline)) void hint_called(void)
{
    hint_caller(CALL_PLACE);
}

/* These bytes are no longer the program's: an access of them is a fault, up to their next life. */
static inline __attribute__((always_inline)) void hint_dead(const void *address, uint32_t length)
{
    hint_word(HINT_LENGTH, length);
    __asm__ volatile("slti x0, %0, %1" : : "r"(address), "i"(HINT_DEAD) : "memory");
}

/* A load of an object that a call is about, before the library's own accesses of it: so a tool sees an object that isn't the program's any
 * more, or that another thread makes meanwhile. */
static inline __attribute__((always_inline)) void look_at(const volatile void *object)
{
    __asm__ volatile("lw x0, 0(%0)" : : "r"(object) : "memory");
}

/* In a function that a program calls on an object. */
static inline __attribute__((always_inline)) void hint_called_on(const volatile void *object)
{
    hint_called();
    look_at(object);
}

static inline void hint_enter(void)
{
    __asm__ volatile("sltu x0, x0, x0" ::: "memory");
}

static inline void hint_leave(void)
{
    __asm__ volatile("slt x0, x0, x0" ::: "memory");
}

/* Copies within a pair to memory of the caller, whose own store it is. A caller within the library has another pair around. */
static inline void hint_copy(void *to, const void *from, size_t count)
{
    hint_leave();
    memcpy(to, from, count);
    hint_enter();
}

#endif
