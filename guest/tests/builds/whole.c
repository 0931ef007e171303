#include <stdio.h>
int main(void)
{
    static unsigned char bytes[65536];
    unsigned long size = 0, sum = 0;
    FILE *file = fopen("/data/large", "rb");
    for (size_t count; (count = fread(bytes, 1, sizeof bytes, file)) > 0; size += count)
        sum = sum * 31 + bytes[count - 1];
    file = fopen("/data/small", "r+");
    fputs("SMALL", file);
    rewind(file);
    return printf("%lu %lu %s", size, sum, fgets((char *)bytes, 100, file)) < 0;
}
