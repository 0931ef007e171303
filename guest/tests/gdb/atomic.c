/* A C11 atomic object: the library makes each access of it in a call that stands for FENCE. */
#include <stdatomic.h>

_Atomic int flag;

static int raise_to(int value)
{
    flag = value;
    return flag;
}

int main(void)
{
    int one = raise_to(1);
    int two = raise_to(2);
    return one + two;
}
