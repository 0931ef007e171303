/* realloc of a block that was freed and went back to the machine ends the program as abort does. */
#include <stdio.h>
#include <stdlib.h>

int main(void)
{
    char *volatile block = malloc(1 << 20);
    free(block);
    printf("realloc\n");
    block = realloc(block, 16);
    printf("%p\n", (void *)block);
    return 0;
}
