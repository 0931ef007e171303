/* Freed: a block is freed twice. Right: once. */
#include "checks.h"

int main(void)
{
    void *volatile block = malloc(100);
    free(block);
    IF_WRONG(free(block));
}
