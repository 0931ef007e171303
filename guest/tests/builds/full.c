#include <errno.h>
#include <stdio.h>
#include <string.h>
#include <unistd.h>
int main(void)
{
    static char bytes[60000];
    int count = 0;
    while (write(1, bytes, sizeof bytes) == sizeof bytes)
        count++;
    fprintf(stderr, "%d, %s\n", count, strerror(errno));
    return 5;
}
