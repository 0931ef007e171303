/* Freed: a load of a large block after its end, which stays mapped. Right: before. */
#include "checks.h"

int main(void)
{
    volatile char *large = malloc(20000);
    large[15000] = 1;
    IF_RIGHT((void)large[15000]);
    free((void *)large);
    IF_WRONG((void)large[15000]);
}
