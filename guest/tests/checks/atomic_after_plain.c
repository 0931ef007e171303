/* Race: a plain load beside an atomic store of the object. Right: a load that is atomic, though relaxed. */
#include "checks.h"

unsigned char flag;

static void *set(void *argument)
{
    __atomic_store_n(&flag, 1, __ATOMIC_RELEASE);
    return argument;
}

static void *look(void *argument)
{
    IF_RIGHT((void)__atomic_load_n(&flag, __ATOMIC_RELAXED));
    IF_WRONG((void)*(volatile unsigned char *)&flag);
    return argument;
}

int main(void)
{
    both(look, set);
}
