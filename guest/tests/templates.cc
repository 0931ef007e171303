// The built-in atomic functions on the types of a template.
#include <stdint.h>
#include <stdio.h>

template <typename T> struct cell {
    T value;
    T take(T next)
    {
        T old = __atomic_load_n(&value, __ATOMIC_SEQ_CST);
        __atomic_store_n(&value, next, __ATOMIC_SEQ_CST);
        __atomic_fetch_add(&value, static_cast<T>(1), __ATOMIC_SEQ_CST);
        return old;
    }
};

template <typename T> static T exchanged(volatile T *place, T next)
{
    T expected = *place;
    __atomic_compare_exchange_n(place, &expected, next, false, __ATOMIC_SEQ_CST, __ATOMIC_SEQ_CST);
    return __atomic_exchange_n(place, expected, __ATOMIC_SEQ_CST);
}

int main()
{
    cell<int> small = {5};
    cell<uint64_t> large = {UINT64_C(1) << 40};
    volatile short number = 3;
    int old_small = small.take(7);
    uint64_t old_large = large.take(9);
    short old_number = exchanged<short>(&number, 8);
    printf("%d %d\n", old_small, small.value);
    printf("%llu %llu\n", (unsigned long long)old_large, (unsigned long long)large.value);
    printf("%d %d\n", old_number, number);
    return 0;
}
