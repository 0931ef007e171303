/* 1: a weak compare-exchange fails though the values are equal. A strong one never does. */
#include <stdatomic.h>
#include <stdlib.h>

enum { TIMES = 200 };

int main(void)
{
    atomic_int value = 0;
    int status = 0;
    for (int i = 0; i < TIMES; i++) {
        int expected = 0;
        if (!atomic_compare_exchange_weak(&value, &expected, 0))
            status = 1;
        if (expected != 0 || !atomic_compare_exchange_strong(&value, &expected, 0))
            abort();
    }
    return status;
}
