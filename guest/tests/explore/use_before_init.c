/* What a thread needs is made after the thread. */
#include "explore.h"

static int *table;

static void *use(void *argument)
{
    must(table && table[0] == 1, "used before it was there");
    return argument;
}

int main(void)
{
#ifdef RIGHT
    table = calloc(4, sizeof *table);
    table[0] = 1;
    begin(use, 0);
#else
    begin(use, 0);
    table = calloc(4, sizeof *table);
    table[0] = 1;
#endif
    join();
}
