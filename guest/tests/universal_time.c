/* timegm is the inverse of gmtime, and puts fields right. */
#define _GNU_SOURCE
#include <stdio.h>
#include <time.h>

int main(void)
{
    int wrong = 0;
    for (long long each = -3000000000LL; each < 8000000000LL; each += 7654321) {
        time_t seconds = (time_t)each;
        struct tm time = *gmtime(&seconds);
        wrong += timegm(&time) != seconds;
    }
    struct tm odd = {.tm_year = 124, .tm_mon = 13, .tm_mday = 31, .tm_hour = -5, .tm_min = 90, .tm_sec = 3600};
    long long seconds = timegm(&odd);
    printf("%d %lld %d-%d-%d %d:%d:%d %d %d\n", wrong, seconds, odd.tm_year, odd.tm_mon, odd.tm_mday, odd.tm_hour, odd.tm_min, odd.tm_sec,
           odd.tm_wday, odd.tm_yday);
    return 0;
}
