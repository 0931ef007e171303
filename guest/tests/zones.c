/* The zone of a broken-down time: tm_gmtoff and tm_zone. */
#define _GNU_SOURCE
#include <stdio.h>
#include <stdlib.h>
#include <string.h>
#include <time.h>

static void say(const char *what, const struct tm *time)
{
    char text[100];
    strftime(text, sizeof text, "%Y-%m-%d %H:%M:%S %z %Z 100%% %j", time);
    printf("%s: %ld %s, %s\n", what, time->tm_gmtoff, time->tm_zone, text);
}

static void in_zone(const char *zone)
{
    time_t winter = 1796060700, summer = 1780000000;
    struct tm time = {.tm_year = 126, .tm_mon = 5, .tm_mday = 31, .tm_hour = 12, .tm_isdst = -1};
    setenv("TZ", zone, 1);
    tzset();
    printf("%s\n", zone);
    say("winter", localtime(&winter));
    say("summer", localtime_r(&summer, &(struct tm){0}));
    say("universal", gmtime(&winter));
    say("universal", gmtime_r(&summer, &(struct tm){0}));
    printf("%lld\n", (long long)mktime(&time));
    say("mktime", &time);
    printf("%lld\n", (long long)timegm(&time));
    say("timegm", &time);
}

int main(void)
{
    char text[4];
    struct tm time = {.tm_mday = 1, .tm_zone = "ZONE"};
    in_zone("UTC0");
    in_zone("CET-1CEST,M3.5.0,M10.5.0/3");
    in_zone("EST5EDT,M3.2.0,M11.1.0");
    in_zone("NPT-5:45");
    printf("%zu %zu\n", strftime(text, sizeof text, "%Z", &time), strftime(text, sizeof text, "%z", &time));
    return 0;
}
