/* times counts in the ticks that sysconf names, and sysconf knows what programs ask for. */
#include <stdio.h>
#include <sys/times.h>
#include <unistd.h>

int main(void)
{
    struct tms before, after;
    clock_t start = times(&before);
    sleep(2);
    clock_t passed = times(&after) - start;
    long ticks = sysconf(_SC_CLK_TCK);
    printf("%ld\n", (long)(passed / ticks));
    printf("%d %d %d\n", sysconf(_SC_VERSION) >= 200809, sysconf(_SC_ARG_MAX) > 4000, sysconf(_SC_PAGESIZE) == getpagesize());
    printf("%ld\n", sysconf(12345));
    return 0;
}
