/* Atomic operations: each is done in the monitor. The compiler calls most of these by names that it knows; stdatomic.h and the
 * redefined built-in functions of dthreads/prelude.h call the others. */
#include <string.h>
#include "monitor.h"

enum {
    /* By choice, one in so many weak compare-exchanges fails. */
    WEAK_FAILURES = 16
};

/* What an operation orders, as C11 has it. Its hints stand in the monitor: an order that acquires before what it is about, one that
 * releases behind it. Of a read-modify-write the load and the store are told as one store. */

static inline bool acquires(int order)
{
    return order != __ATOMIC_RELAXED && order != __ATOMIC_RELEASE;
}

static inline bool releases(int order)
{
    return order == __ATOMIC_RELEASE || order == __ATOMIC_ACQ_REL || order == __ATOMIC_SEQ_CST;
}

static inline void hint_load_order(const volatile void *object, int order)
{
    if (acquires(order))
        dthreads_hint_acquire(object);
    else
        hint_object(HINT_SEEN_ACQUIRE, object);
}

static inline void hint_store_order(const volatile void *object, int order)
{
    if (releases(order))
        dthreads_hint_release(object);
    else
        hint_object(HINT_RELAXED_RELEASE, object);
}

static inline void hint_load(size_t size, const volatile void *object, int order)
{
    hint_load_order(object, order);
    hint_word(HINT_LENGTH, size);
    hint_object(HINT_ATOMIC_LOAD, object);
}

static inline void hint_store(size_t size, const volatile void *object, int order)
{
    hint_word(HINT_LENGTH, size);
    hint_object(HINT_ATOMIC_STORE, object);
    hint_store_order(object, order);
}

static inline void hint_change(size_t size, const volatile void *object, int order)
{
    hint_load_order(object, order);
    hint_store(size, object, order);
}

static inline void load(size_t size, const volatile void *object, void *result, int order)
{
    monitor_enter();
    hint_load(size, object, order);
    memcpy(result, (const void *)object, size);
    monitor_leave();
}

static inline void store(size_t size, volatile void *object, const void *value, int order)
{
    monitor_enter();
    hint_store(size, object, order);
    memcpy((void *)object, value, size);
    monitor_leave();
}

static inline void exchange(size_t size, volatile void *object, const void *value, void *result, int order)
{
    char old[size];
    monitor_enter();
    hint_change(size, object, order);
    memcpy(old, (void *)object, size);
    memcpy((void *)object, value, size);
    monitor_leave();
    memcpy(result, old, size);
}

/* How a compare-exchange is done: its orders, and whether it may fail though the values are equal. */
struct attempt {
    int success, failure;
    bool is_weak;
};

static bool compare_exchange(size_t size, volatile void *object, void *expected, const void *desired, struct attempt attempt)
{
    monitor_enter();
    bool is_done = memcmp((void *)object, expected, size) == 0 && !(attempt.is_weak && vary_one_in(WEAK_FAILURES));
    if (is_done) {
        hint_change(size, object, attempt.success);
        memcpy((void *)object, desired, size);
    } else {
        hint_load(size, object, attempt.failure);
        memcpy(expected, (void *)object, size);
    }
    monitor_leave();
    return is_done;
}

enum operation {
    ADD,
    SUB,
    AND,
    OR,
    XOR,
    NAND
};

static uint64_t combined(enum operation operation, uint64_t old, uint64_t value)
{
    switch (operation) {
    case ADD:
        return old + value;
    case SUB:
        return old - value;
    case AND:
        return old & value;
    case OR:
        return old | value;
    case XOR:
        return old ^ value;
    default:
        return ~(old & value);
    }
}

/* The lowest bytes of `old` and `fresh` are the object's value before and after. */
static uint64_t change(size_t size, volatile void *object, enum operation operation, uint64_t value, bool gives_fresh, int order)
{
    uint64_t old = 0;
    monitor_enter();
    hint_change(size, object, order);
    memcpy(&old, (void *)object, size);
    uint64_t fresh = combined(operation, old, value);
    memcpy((void *)object, &fresh, size);
    monitor_leave();
    return gives_fresh ? fresh : old;
}

/* What a program calls: each says where from. */

void dthreads_atomic_load(size_t size, const volatile void *object, void *result, int order)
{
    hint_called();
    load(size, object, result, order);
}

void dthreads_atomic_store(size_t size, volatile void *object, const void *value, int order)
{
    hint_called();
    store(size, object, value, order);
}

void dthreads_atomic_exchange(size_t size, volatile void *object, const void *value, void *result, int order)
{
    hint_called();
    exchange(size, object, value, result, order);
}

bool dthreads_atomic_compare_exchange(size_t size, volatile void *object, void *expected, const void *desired, int success, int failure)
{
    hint_called();
    return compare_exchange(size, object, expected, desired, (struct attempt){success, failure, false});
}

bool dthreads_atomic_compare_exchange_weak(size_t size, volatile void *object, void *expected, const void *desired,
                                           int success, int failure)
{
    hint_called();
    return compare_exchange(size, object, expected, desired, (struct attempt){success, failure, true});
}

#define OPERATION(name, operation) \
    uint64_t dthreads_atomic_fetch_##name(size_t size, volatile void *object, uint64_t value, int order) \
    { \
        hint_called(); \
        return change(size, object, operation, value, false, order); \
    } \
    uint64_t dthreads_atomic_##name##_fetch(size_t size, volatile void *object, uint64_t value, int order) \
    { \
        hint_called(); \
        return change(size, object, operation, value, true, order); \
    }

OPERATION(add, ADD)
OPERATION(sub, SUB)
OPERATION(and, AND)
OPERATION(or, OR)
OPERATION(xor, XOR)
OPERATION(nand, NAND)

/* The names that the compiler knows, for each size. Those with sync in them are sequentially consistent, but for the two of a lock. */

#define NAMED(type, ours, known, ...) \
    type ours(__VA_ARGS__) __asm__(known); \
    type ours(__VA_ARGS__)

#define OPERATION_OF_SIZE(type, size, name, operation) \
    NAMED(type, fetch_##name##_##size, "__atomic_fetch_" #name "_" #size, volatile void *object, type value, int order) \
    { \
        hint_called(); \
        return (type)change(size, object, operation, value, false, order); \
    } \
    NAMED(type, name##_fetch_##size, "__atomic_" #name "_fetch_" #size, volatile void *object, type value, int order) \
    { \
        hint_called(); \
        return (type)change(size, object, operation, value, true, order); \
    } \
    NAMED(type, sync_fetch_##name##_##size, "__sync_fetch_and_" #name "_" #size, volatile void *object, type value) \
    { \
        hint_called(); \
        return (type)change(size, object, operation, value, false, __ATOMIC_SEQ_CST); \
    } \
    NAMED(type, sync_##name##_fetch_##size, "__sync_" #name "_and_fetch_" #size, volatile void *object, type value) \
    { \
        hint_called(); \
        return (type)change(size, object, operation, value, true, __ATOMIC_SEQ_CST); \
    }

#define ALL_OF_SIZE(type, size) \
    OPERATION_OF_SIZE(type, size, add, ADD) \
    OPERATION_OF_SIZE(type, size, sub, SUB) \
    OPERATION_OF_SIZE(type, size, and, AND) \
    OPERATION_OF_SIZE(type, size, or, OR) \
    OPERATION_OF_SIZE(type, size, xor, XOR) \
    OPERATION_OF_SIZE(type, size, nand, NAND) \
    NAMED(type, load_##size, "__atomic_load_" #size, const volatile void *object, int order) \
    { \
        type value; \
        hint_called(); \
        load(size, object, &value, order); \
        return value; \
    } \
    NAMED(void, store_##size, "__atomic_store_" #size, volatile void *object, type value, int order) \
    { \
        hint_called(); \
        store(size, object, &value, order); \
    } \
    NAMED(type, exchange_##size, "__atomic_exchange_" #size, volatile void *object, type value, int order) \
    { \
        hint_called(); \
        exchange(size, object, &value, &value, order); \
        return value; \
    } \
    NAMED(bool, compare_exchange_##size, "__atomic_compare_exchange_" #size, volatile void *object, void *expected, \
          type desired, int success, int failure) \
    { \
        hint_called(); \
        return compare_exchange(size, object, expected, &desired, (struct attempt){success, failure, false}); \
    } \
    NAMED(bool, sync_bool_##size, "__sync_bool_compare_and_swap_" #size, volatile void *object, type expected, type desired) \
    { \
        hint_called(); \
        return compare_exchange(size, object, &expected, &desired, strong); \
    } \
    NAMED(type, sync_val_##size, "__sync_val_compare_and_swap_" #size, volatile void *object, type expected, type desired) \
    { \
        hint_called(); \
        compare_exchange(size, object, &expected, &desired, strong); \
        return expected; \
    } \
    NAMED(type, sync_set_##size, "__sync_lock_test_and_set_" #size, volatile void *object, type value) \
    { \
        hint_called(); \
        exchange(size, object, &value, &value, __ATOMIC_ACQUIRE); \
        return value; \
    } \
    NAMED(void, sync_clear_##size, "__sync_lock_release_" #size, volatile void *object) \
    { \
        type value = 0; \
        hint_called(); \
        store(size, object, &value, __ATOMIC_RELEASE); \
    }

static const struct attempt strong = {__ATOMIC_SEQ_CST, __ATOMIC_SEQ_CST, false};

ALL_OF_SIZE(uint8_t, 1)
ALL_OF_SIZE(uint16_t, 2)
ALL_OF_SIZE(uint32_t, 4)
ALL_OF_SIZE(uint64_t, 8)

/* Objects of any size. */

NAMED(void, load_any, "__atomic_load", size_t size, const volatile void *object, void *result, int order)
{
    hint_called();
    load(size, object, result, order);
}

NAMED(void, store_any, "__atomic_store", size_t size, volatile void *object, const void *value, int order)
{
    hint_called();
    store(size, object, value, order);
}

NAMED(void, exchange_any, "__atomic_exchange", size_t size, volatile void *object, const void *value, void *result, int order)
{
    hint_called();
    exchange(size, object, value, result, order);
}

NAMED(bool, compare_exchange_any, "__atomic_compare_exchange", size_t size, volatile void *object, void *expected,
      const void *desired, int success, int failure)
{
    hint_called();
    return compare_exchange(size, object, expected, desired, (struct attempt){success, failure, false});
}

NAMED(bool, is_lock_free, "__atomic_is_lock_free", size_t size, const volatile void *object)
{
    (void)size;
    (void)object;
    return false;
}

/* A test of the value before with the exchange: the result of the flag's functions. */
bool dthreads_atomic_test_and_set(volatile void *object, int order)
{
    uint8_t set = 1;
    hint_called();
    exchange(1, object, &set, &set, order);
    return set != 0;
}

/* A fence: the thread's stores become visible, and others' stores to it. */
void dthreads_atomic_fence(int order)
{
    monitor_enter();
    if (acquires(order))
        hint_word(HINT_FENCE_ACQUIRE, 0);
    if (releases(order))
        hint_word(HINT_FENCE_RELEASE, 0);
    monitor_leave();
}
