/* Race: two threads change two bits of one word. Right: two bytes. */
#include "checks.h"

struct {
    unsigned char left IF_WRONG(: 1);
    unsigned char right IF_WRONG(: 1);
} volatile flags;

static void *one(void *argument)
{
    flags.left = 1;
    return argument;
}

static void *two(void *argument)
{
    flags.right = 1;
    return argument;
}

int main(void)
{
    both(one, two);
}
