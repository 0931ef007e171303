/* free of what is no block ends the program as abort does. */
#include <stdio.h>
#include <stdlib.h>

static int number;

int main(void)
{
    void *volatile outside = &number;
    printf("free\n");
    free(outside);
    printf("freed\n");
    return 0;
}
