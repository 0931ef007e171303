/* Blocks at multiples of any power of two, and sizes that no block can have. */
#include <errno.h>
#include <malloc.h>
#include <stdint.h>
#include <stdio.h>
#include <stdlib.h>
#include <string.h>

int main(void)
{
    for (size_t align = 8; align <= 1 << 20; align *= 4)
        for (size_t size = 1; size <= 300000; size = size * 7 + 3) {
            void *block;
            if (posix_memalign(&block, align, size) != 0 || (uintptr_t)block % align != 0)
                printf("%zu %zu\n", align, size);
            memset(block, 1, size);
            block = realloc(block, size + 5000);
            if (((char *)block)[size - 1] != 1)
                printf("%zu %zu: lost\n", align, size);
            free(block);
        }
    void *blocks[20];
    for (int i = 0; i < 20; i++)
        blocks[i] = aligned_alloc(65536, 65536);
    for (int i = 0; i < 20; i++)
        printf("%d", (uintptr_t)blocks[i] % 65536 == 0);
    for (int i = 0; i < 20; i++)
        free(blocks[i]);
    printf("\n%s\n", memalign(32, 0x80000001u) ? "?" : errno == ENOMEM ? "ENOMEM" : "another error");
    printf("%s\n", memalign(32, 0xfffffff0u) ? "?" : errno == ENOMEM ? "ENOMEM" : "another error");
    printf("%s\n", memalign(0x80000000u, 16) ? "?" : errno == ENOMEM ? "ENOMEM" : "another error");
    printf("%s\n", aligned_alloc(4096, 0xffffffffu) ? "?" : errno == ENOMEM ? "ENOMEM" : "another error");
    return 0;
}
