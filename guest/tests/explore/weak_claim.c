/* One of two threads must win; each tries once by a weak compare-exchange, which may fail without a reason. */
#include "explore.h"

static atomic_int winner;

static void *claim(void *number)
{
    int nobody = 0;
#ifdef RIGHT
    atomic_compare_exchange_strong(&winner, &nobody, (int)(long)number);
#else
    if (!atomic_compare_exchange_weak(&winner, &nobody, (int)(long)number) && nobody == 0)
        return NULL;
#endif
    must(atomic_load(&winner) != 0, "nobody won");
    return NULL;
}

int main(void)
{
    begin(claim, 1);
    join();
    must(atomic_load(&winner) != 0, "nobody won");
}
