/* Memory of malloc has a pattern: 1 of a small block, 2 of a large one. Freed memory has another one: 4 of a small block, 8 of a large one.
 * 16: a freed small block isn't the next that is given. */
#include <stdlib.h>

enum { SMALL = 100, LARGE = 10000, GIVEN = 0xA5, FREED = 0xDB };

int main(void)
{
    volatile unsigned char *small = malloc(SMALL), *large = malloc(LARGE);
    int status = (small[SMALL / 2] == GIVEN) | (large[LARGE / 2] == GIVEN) << 1;
    free((void *)small);
    free((void *)large);
    status |= (small[SMALL / 2] == FREED) << 2 | (large[LARGE / 2] == FREED) << 3;
    return status | (malloc(SMALL) != small) << 4;
}
