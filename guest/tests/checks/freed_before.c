/* Freed: one thread stores to a block that it has freed. Right: before. */
#include "checks.h"

int main(void)
{
    volatile char *text = malloc(16);
    IF_RIGHT(text[5] = 'x');
    free((void *)text);
    IF_WRONG(text[5] = 'x');
}
