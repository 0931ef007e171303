/* Where a thread-local variable lies, for code that was compiled for shared libraries: there is one module. */
#include <stdint.h>

/* What the linker takes off each offset. */
#define DTV_OFFSET 0x800

struct tls_index {
    uint32_t module;
    uint32_t offset;
};

void *__tls_get_addr(const struct tls_index *index)
{
    char *block;
    __asm__("mv %0, tp" : "=r"(block));
    return block + index->offset + DTV_OFFSET;
}
