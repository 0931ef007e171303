/* A race: four threads of a loop add to one number without `reduction(+:total)`. Each works on a copy of its own, so the additions of
 * three are lost, and always of the same three. */
#include <stdio.h>

enum { COUNT = 1000 };

int total;

int main(void)
{
#pragma omp parallel for num_threads(4)
    for (int i = 0; i < COUNT; i++)
        total += i;
    printf("total %d of %d\n", total, COUNT * (COUNT - 1) / 2);
    return total != COUNT * (COUNT - 1) / 2;
}
