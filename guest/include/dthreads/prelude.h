/* Every compilation includes this first.
 *
 * rv32im has no atomic instructions. Of the built-in atomic functions the compiler makes calls of the library, but also plain
 * loads and stores, some beside the instruction FENCE, which is no synchronisation here. So the assembler gets a call in place
 * of FENCE, and the functions that the compiler would turn into loads and stores are calls from the start. */
#ifndef DTHREADS_PRELUDE_H
#define DTHREADS_PRELUDE_H
#pragma GCC system_header

/* Programs ask by these whether there is what POSIX has. */
#define __unix__ 1
#define __unix 1

/* Numbers of 32 bits are ints, as on other machines of 32 bits: an int and a uint32_t may then be the same object. To this
 * compiler they were longs, which have the same size; the C library's files know no difference. */
#undef __INT32_TYPE__
#undef __UINT32_TYPE__
#undef __INT_LEAST32_TYPE__
#undef __UINT_LEAST32_TYPE__
#undef __INT32_MAX__
#undef __UINT32_MAX__
#undef __INT_LEAST32_MAX__
#undef __UINT_LEAST32_MAX__
#undef __INT32_C
#undef __UINT32_C
#define __INT32_TYPE__ int
#define __UINT32_TYPE__ unsigned int
#define __INT_LEAST32_TYPE__ int
#define __UINT_LEAST32_TYPE__ unsigned int
#define __INT32_MAX__ 0x7fffffff
#define __UINT32_MAX__ 0xffffffffU
#define __INT_LEAST32_MAX__ 0x7fffffff
#define __UINT_LEAST32_MAX__ 0xffffffffU
#define __INT32_C(number) number
#define __UINT32_C(number) number ## U

/* The operations on objects of these sizes are all there, and never fail. */
#undef __GCC_ATOMIC_BOOL_LOCK_FREE
#undef __GCC_ATOMIC_CHAR_LOCK_FREE
#undef __GCC_ATOMIC_CHAR8_T_LOCK_FREE
#undef __GCC_ATOMIC_CHAR16_T_LOCK_FREE
#undef __GCC_ATOMIC_CHAR32_T_LOCK_FREE
#undef __GCC_ATOMIC_WCHAR_T_LOCK_FREE
#undef __GCC_ATOMIC_SHORT_LOCK_FREE
#undef __GCC_ATOMIC_INT_LOCK_FREE
#undef __GCC_ATOMIC_LONG_LOCK_FREE
#undef __GCC_ATOMIC_LLONG_LOCK_FREE
#undef __GCC_ATOMIC_POINTER_LOCK_FREE
#define __GCC_ATOMIC_BOOL_LOCK_FREE 2
#define __GCC_ATOMIC_CHAR_LOCK_FREE 2
#define __GCC_ATOMIC_CHAR8_T_LOCK_FREE 2
#define __GCC_ATOMIC_CHAR16_T_LOCK_FREE 2
#define __GCC_ATOMIC_CHAR32_T_LOCK_FREE 2
#define __GCC_ATOMIC_WCHAR_T_LOCK_FREE 2
#define __GCC_ATOMIC_SHORT_LOCK_FREE 2
#define __GCC_ATOMIC_INT_LOCK_FREE 2
#define __GCC_ATOMIC_LONG_LOCK_FREE 2
#define __GCC_ATOMIC_LLONG_LOCK_FREE 2
#define __GCC_ATOMIC_POINTER_LOCK_FREE 2

#ifdef __ASSEMBLER__

    .macro fence predecessor=iorw, successor=iorw
    addi sp, sp, -16
    sw ra, 12(sp)
    call __dthreads_sync
    lw ra, 12(sp)
    addi sp, sp, 16
    .endm

#else

/* Tells a debugger that the macro below moves sp. Without optimisation the compiler finds its frame by another register, and there is
 * nothing to tell. With exceptions the frames are a part of the loaded program, which must not grow. */
#if defined __GCC_HAVE_DWARF2_CFI_ASM && defined __OPTIMIZE__ && !defined __EXCEPTIONS
#define DTHREADS_FRAME(text) text "\n"
#else
#define DTHREADS_FRAME(text)
#endif

/* The compiler writes `fence iorw,iorw` in pairs around a plain access of an atomic object; others come alone. */
__asm__(".macro fence predecessor=iorw, successor=rw\n"
        "addi sp, sp, -16\n"
        DTHREADS_FRAME(".cfi_adjust_cfa_offset 16")
        "sw ra, 12(sp)\n"
        ".ifc \\predecessor\\successor,iorwiorw\n"
        "call __dthreads_fence\n"
        ".else\n"
        "call __dthreads_sync\n"
        ".endif\n"
        "lw ra, 12(sp)\n"
        "addi sp, sp, 16\n"
        DTHREADS_FRAME(".cfi_adjust_cfa_offset -16")
        ".endm\n");

#ifdef __cplusplus
extern "C" {
#define DTHREADS_BOOL bool
#else
#define DTHREADS_BOOL _Bool
#endif

void dthreads_atomic_load(__SIZE_TYPE__, const volatile void *, void *, int);
void dthreads_atomic_store(__SIZE_TYPE__, volatile void *, const void *, int);
void dthreads_atomic_exchange(__SIZE_TYPE__, volatile void *, const void *, void *, int);
DTHREADS_BOOL dthreads_atomic_compare_exchange(__SIZE_TYPE__, volatile void *, void *, const void *, int, int);
DTHREADS_BOOL dthreads_atomic_compare_exchange_weak(__SIZE_TYPE__, volatile void *, void *, const void *, int, int);
DTHREADS_BOOL dthreads_atomic_test_and_set(volatile void *, int);
void dthreads_atomic_fence(int);

#define DTHREADS_DECLARE(name) \
    __UINT64_TYPE__ dthreads_atomic_fetch_##name(__SIZE_TYPE__, volatile void *, __UINT64_TYPE__, int); \
    __UINT64_TYPE__ dthreads_atomic_##name##_fetch(__SIZE_TYPE__, volatile void *, __UINT64_TYPE__, int);
DTHREADS_DECLARE(add)
DTHREADS_DECLARE(sub)
DTHREADS_DECLARE(and)
DTHREADS_DECLARE(or)
DTHREADS_DECLARE(xor)
DTHREADS_DECLARE(nand)

#ifdef __cplusplus
}
/* The type of an object without its qualifiers. */
template <typename T> struct dthreads_plain { typedef T type; };
template <typename T> struct dthreads_plain<const T> { typedef T type; };
template <typename T> struct dthreads_plain<volatile T> { typedef T type; };
template <typename T> struct dthreads_plain<const volatile T> { typedef T type; };
#define DTHREADS_PLAIN(object) typename dthreads_plain<__typeof__(*(object))>::type
#else
#define DTHREADS_PLAIN(object) __typeof__((void)0, *(object))
#endif

#ifndef DTHREADS_LIBRARY

#define __atomic_load(object, result, order) \
    dthreads_atomic_load(sizeof *(object), (object), (void *)(result), (int)(order))
#define __atomic_store(object, value, order) \
    dthreads_atomic_store(sizeof *(object), (object), (const void *)(value), (int)(order))
#define __atomic_exchange(object, value, result, order) \
    dthreads_atomic_exchange(sizeof *(object), (object), (const void *)(value), (void *)(result), (int)(order))
#define __atomic_compare_exchange(object, expected, desired, weak, success, failure) \
    ((weak) ? dthreads_atomic_compare_exchange_weak : dthreads_atomic_compare_exchange)( \
        sizeof *(object), (object), (void *)(expected), (const void *)(desired), (int)(success), (int)(failure))

#define __atomic_load_n(object, order) __extension__({ \
        DTHREADS_PLAIN(object) dthreads_result; \
        __atomic_load(object, &dthreads_result, order); \
        dthreads_result; \
    })
#define __atomic_store_n(object, value, order) __extension__({ \
        DTHREADS_PLAIN(object) dthreads_value = (value); \
        __atomic_store(object, &dthreads_value, order); \
    })
#define __atomic_exchange_n(object, value, order) __extension__({ \
        DTHREADS_PLAIN(object) dthreads_value = (value); \
        __atomic_exchange(object, &dthreads_value, &dthreads_value, order); \
        dthreads_value; \
    })
#define __atomic_compare_exchange_n(object, expected, desired, weak, success, failure) __extension__({ \
        DTHREADS_PLAIN(object) dthreads_value = (desired); \
        __atomic_compare_exchange(object, expected, &dthreads_value, weak, success, failure); \
    })

#define DTHREADS_CHANGE(name, object, value, order) __extension__({ \
        DTHREADS_PLAIN(object) dthreads_result; \
        dthreads_result = (DTHREADS_PLAIN(object))dthreads_atomic_##name( \
            sizeof *(object), (object), (__UINT64_TYPE__)(value), (int)(order)); \
        dthreads_result; \
    })

#define __atomic_fetch_add(object, value, order) DTHREADS_CHANGE(fetch_add, object, value, order)
#define __atomic_fetch_sub(object, value, order) DTHREADS_CHANGE(fetch_sub, object, value, order)
#define __atomic_fetch_and(object, value, order) DTHREADS_CHANGE(fetch_and, object, value, order)
#define __atomic_fetch_or(object, value, order) DTHREADS_CHANGE(fetch_or, object, value, order)
#define __atomic_fetch_xor(object, value, order) DTHREADS_CHANGE(fetch_xor, object, value, order)
#define __atomic_fetch_nand(object, value, order) DTHREADS_CHANGE(fetch_nand, object, value, order)
#define __atomic_add_fetch(object, value, order) DTHREADS_CHANGE(add_fetch, object, value, order)
#define __atomic_sub_fetch(object, value, order) DTHREADS_CHANGE(sub_fetch, object, value, order)
#define __atomic_and_fetch(object, value, order) DTHREADS_CHANGE(and_fetch, object, value, order)
#define __atomic_or_fetch(object, value, order) DTHREADS_CHANGE(or_fetch, object, value, order)
#define __atomic_xor_fetch(object, value, order) DTHREADS_CHANGE(xor_fetch, object, value, order)
#define __atomic_nand_fetch(object, value, order) DTHREADS_CHANGE(nand_fetch, object, value, order)

#define __atomic_test_and_set(object, order) dthreads_atomic_test_and_set(object, (int)(order))
#define __atomic_clear(object, order) __extension__({ \
        unsigned char dthreads_value = 0; \
        dthreads_atomic_store(1, (object), &dthreads_value, (int)(order)); \
    })
#define __atomic_thread_fence(order) dthreads_atomic_fence((int)(order))
#define __atomic_signal_fence(order) ((void)(order), __extension__({ __asm__ volatile("" ::: "memory"); }))
#define __sync_synchronize() dthreads_atomic_fence(__ATOMIC_SEQ_CST)
#define __sync_lock_release(object, ...) __extension__({ \
        DTHREADS_PLAIN(object) dthreads_value = 0; \
        dthreads_atomic_store(sizeof *(object), (object), &dthreads_value, __ATOMIC_RELEASE); \
    })

#endif
#endif
#endif
