/* The fifteen calls of the machine as C functions, and hints for tools that look for races.
 *
 * Each is one turn, and a full barrier for the compiler: what the thread stored before it is written to the memory that all
 * threads share, and what it loads after it comes from there. A function returns the call's code; a value, if the call
 * has one, goes to the place that the last argument names.
 *
 * Programs that use pthread.h need none of these. The library behind pthread.h holds mutex 63 and waits on all conditions,
 * so a program should use either this header alone or pthread.h alone.
 */
#ifndef DTHREADS_H
#define DTHREADS_H

#include <stdint.h>
#include <dthreads/limits.h>

#ifdef __cplusplus
extern "C" {
#endif

enum dthreads_code {
    DTHREADS_DONE = 0,
    DTHREADS_NO_SUCH_CALL = 1,
    DTHREADS_BAD_ARGUMENT = 2,
    DTHREADS_BAD_ADDRESS = 3,
    DTHREADS_LIMIT = 4,
    DTHREADS_NOT_HOLDER = 5,
    DTHREADS_HOLDS_A_LOCK = 6,
    DTHREADS_NO_SUCH_THREAD = 7,
    DTHREADS_ALREADY_HELD = 8,
    DTHREADS_ANOTHER_COUNT = 9
};

enum dthreads_number {
    DTHREADS_EXIT = 1,
    DTHREADS_THREAD_EXIT,
    DTHREADS_CREATE,
    DTHREADS_JOIN,
    DTHREADS_LOCK,
    DTHREADS_UNLOCK,
    DTHREADS_WAIT,
    DTHREADS_SIGNAL,
    DTHREADS_BROADCAST,
    DTHREADS_BARRIER,
    DTHREADS_WRITE,
    DTHREADS_READ,
    DTHREADS_MEMORY,
    DTHREADS_SYNC,
    DTHREADS_RELEASE
};

/* A call by its number; `value` gets x11, which stays `second` if the call has no value. */
static inline uint32_t dthreads_call(uint32_t number, uint32_t first, uint32_t second, uint32_t third, uint32_t *value)
{
    register uint32_t x10 __asm__("a0") = first;
    register uint32_t x11 __asm__("a1") = second;
    register uint32_t x12 __asm__("a2") = third;
    register uint32_t x17 __asm__("a7") = number;
    __asm__ volatile("ecall" : "+r"(x10), "+r"(x11) : "r"(x12), "r"(x17) : "memory");
    if (value)
        *value = x11;
    return x10;
}

/* Ends the run with this status, modulo 256. Doesn't return. */
__attribute__((noreturn)) static inline void dthreads_exit(uint32_t status)
{
    for (;;)
        dthreads_call(DTHREADS_EXIT, status, 0, 0, 0);
}

/* Ends the calling thread; who joins it gets the value. Its mutexes become free. Doesn't return. */
__attribute__((noreturn)) static inline void dthreads_thread_exit(uint32_t value)
{
    for (;;)
        dthreads_call(DTHREADS_THREAD_EXIT, value, 0, 0, 0);
}

/* Makes a thread that runs `entry(argument)` from the next phase on and ends with value 0 when that returns. `stack_top` is
 * the end of its stack, of which the upper part holds its thread-local storage. `number` gets the thread's number.
 * DTHREADS_LIMIT after 256 threads. */
uint32_t dthreads_create(void (*entry)(void *), void *argument, void *stack_top, uint32_t *number);

/* Waits until thread `number` has ended; `value` gets what it ended with. DTHREADS_NO_SUCH_THREAD for an unknown number and
 * for the caller's own, DTHREADS_HOLDS_A_LOCK if the caller would wait and holds a mutex. */
static inline uint32_t dthreads_join(uint32_t number, uint32_t *value)
{
    return dthreads_call(DTHREADS_JOIN, number, 0, 0, value);
}

/* Takes mutex 0 to 63. DTHREADS_BAD_ARGUMENT over 63, DTHREADS_ALREADY_HELD if the caller holds it. */
static inline uint32_t dthreads_lock(uint32_t mutex)
{
    return dthreads_call(DTHREADS_LOCK, mutex, 0, 0, 0);
}

/* Frees mutex 0 to 63. DTHREADS_BAD_ARGUMENT over 63, DTHREADS_NOT_HOLDER if the caller doesn't hold it. */
static inline uint32_t dthreads_unlock(uint32_t mutex)
{
    return dthreads_call(DTHREADS_UNLOCK, mutex, 0, 0, 0);
}

/* Frees the mutex, waits until the condition is signalled, and takes the mutex again. DTHREADS_BAD_ARGUMENT for a number over
 * 63, DTHREADS_NOT_HOLDER if the caller doesn't hold the mutex, DTHREADS_HOLDS_A_LOCK if it holds another one too. */
static inline uint32_t dthreads_wait(uint32_t condition, uint32_t mutex)
{
    return dthreads_call(DTHREADS_WAIT, condition, mutex, 0, 0);
}

/* Wakes the first thread that waits for the condition; `woken` gets 1, or 0 if none waits. */
static inline uint32_t dthreads_signal(uint32_t condition, uint32_t *woken)
{
    return dthreads_call(DTHREADS_SIGNAL, condition, 0, 0, woken);
}

/* Wakes all threads that wait for the condition; `woken` gets how many. */
static inline uint32_t dthreads_broadcast(uint32_t condition, uint32_t *woken)
{
    return dthreads_call(DTHREADS_BROADCAST, condition, 0, 0, woken);
}

/* Waits at barrier 0 to 63 until `count` threads, 1 to 256, are there; `last` gets 1 in the one that came last, else 0.
 * DTHREADS_BAD_ARGUMENT for numbers outside these, DTHREADS_HOLDS_A_LOCK if the caller holds a mutex,
 * DTHREADS_ANOTHER_COUNT if those who wait there named another count. */
static inline uint32_t dthreads_barrier(uint32_t barrier, uint32_t count, uint32_t *last)
{
    return dthreads_call(DTHREADS_BARRIER, barrier, count, 0, last);
}

/* Appends up to 65,536 bytes to the output. DTHREADS_BAD_ARGUMENT for more, DTHREADS_BAD_ADDRESS if one of them can't be
 * read, DTHREADS_LIMIT if the output would pass 16,777,216 bytes. */
static inline uint32_t dthreads_write(const void *bytes, uint32_t length)
{
    return dthreads_call(DTHREADS_WRITE, (uint32_t)(uintptr_t)bytes, length, 0, 0);
}

/* Reads up to `length` bytes of the input, at most 65,536; `got` gets how many, 0 at its end. DTHREADS_BAD_ARGUMENT for more,
 * DTHREADS_BAD_ADDRESS if one of `length` bytes can't be written. */
static inline uint32_t dthreads_read(void *bytes, uint32_t length, uint32_t *got)
{
    return dthreads_call(DTHREADS_READ, (uint32_t)(uintptr_t)bytes, length, 0, got);
}

/* Gives `pages` more pages of zeros, 1 to 1024; `address` gets the first one's. DTHREADS_BAD_ARGUMENT for other counts,
 * DTHREADS_LIMIT if more than 16,384 pages would have been given. */
static inline uint32_t dthreads_memory(uint32_t pages, uint32_t *address)
{
    return dthreads_call(DTHREADS_MEMORY, pages, 0, 0, address);
}

/* Only a synchronisation. */
static inline uint32_t dthreads_sync(void)
{
    return dthreads_call(DTHREADS_SYNC, 0, 0, 0, 0);
}

/* Takes away `pages` pages of the heap, 1 to 1024, for good. DTHREADS_BAD_ARGUMENT for other counts and an address that is no
 * multiple of 4096, DTHREADS_BAD_ADDRESS for pages that weren't given or are released. */
static inline uint32_t dthreads_release(void *address, uint32_t pages)
{
    return dthreads_call(DTHREADS_RELEASE, (uint32_t)(uintptr_t)address, pages, 0, 0);
}

/* Hints for tools that look for races. Each is one instruction that the machine executes without effect: no turn, no change, the
 * same answers. They tell of order that a tool can't see in the calls, such as that of a program's own locks.
 *
 * An object is any word, such as an address. What a thread did before it released an object happens before what another one does
 * after it acquired the object later. */

/* This thread goes on after all that released the object before. */
static inline void dthreads_hint_acquire(const volatile void *object)
{
    __asm__ volatile("slt x0, %0, x0" : : "r"(object) : "memory");
}

/* Who acquires the object later goes on after this. */
static inline void dthreads_hint_release(const volatile void *object)
{
    __asm__ volatile("slt x0, x0, %0" : : "r"(object) : "memory");
}

/* These bytes begin a new life: no access before and no access after this race with each other. So an allocator says that it hands
 * out memory again. */
static inline void dthreads_hint_fresh(const volatile void *address, uint32_t length)
{
    __asm__ volatile("sltu x0, %0, %1" : : "r"(address), "r"(length) : "memory");
}

#ifdef __cplusplus
}
#endif
#endif
