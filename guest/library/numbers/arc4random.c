/* Random numbers as the BSDs have them, by the seed of the run. */
#include <stdint.h>
#include <stdlib.h>
#include <sys/random.h>

void arc4random_buf(void *bytes, size_t length)
{
    getrandom(bytes, length, 0);
}

uint32_t arc4random(void)
{
    uint32_t number;
    arc4random_buf(&number, sizeof number);
    return number;
}

/* The numbers below the rest of a division of 2^32 would come once more than the others. */
uint32_t arc4random_uniform(uint32_t bound)
{
    if (bound < 2)
        return 0;
    uint32_t least = -bound % bound;
    uint32_t number;
    do
        number = arc4random();
    while (number < least);
    return number % bound;
}
