/* Freed: the old address of a block that has moved. Right: the new one. */
#include "checks.h"

int main(void)
{
    int *volatile old = malloc(32);
    int *volatile grown = realloc(old, 3200);
    *(volatile int *)(IF_RIGHT(grown) IF_WRONG(old)) = 1;
    free(grown);
}
