/* A weak compare-exchange fails though the values are equal: each is a choice. 1: the 101st or a later one, 2: an earlier one. */
#include <stdatomic.h>

enum { TIMES = 300, CHOICES = 100 };

int main(void)
{
    atomic_int value = 0;
    int status = 0;
    for (int i = 0; i < TIMES; i++) {
        int expected = 0;
        if (!atomic_compare_exchange_weak(&value, &expected, 0))
            status |= i < CHOICES ? 2 : 1;
    }
    return status;
}
