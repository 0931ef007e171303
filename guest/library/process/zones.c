/* Broken-down times with the zone that they are in: the C library's functions, with the fields tm_gmtoff and tm_zone beside. time.h
 * gives programs these under the names of the standard. */
#include <stdio.h>
#include <stdlib.h>
#include <string.h>
#include <time.h>

/* Those of the C library, which know the first nine fields. */
struct tm *c_gmtime(const time_t *) __asm__("gmtime");
struct tm *c_gmtime_r(const time_t *, struct tm *) __asm__("gmtime_r");
struct tm *c_localtime(const time_t *) __asm__("localtime");
struct tm *c_localtime_r(const time_t *, struct tm *) __asm__("localtime_r");
time_t c_mktime(struct tm *) __asm__("mktime");
time_t c_timegm(struct tm *) __asm__("timegm");
size_t c_strftime(char *, size_t, const char *, const struct tm *) __asm__("strftime");

enum {
    KNOWN = offsetof(struct tm, tm_gmtoff),
    /* The longest name of a zone that strftime writes. */
    LONGEST_ZONE = 10
};

/* What gmtime and localtime return. */
static struct tm shown;

static struct tm *of_universal(struct tm *time)
{
    time->tm_gmtoff = 0;
    time->tm_zone = "GMT";
    return time;
}

static struct tm *of_zone(struct tm *time, time_t seconds)
{
    struct tm copy = *time;
    time->tm_gmtoff = (long)(c_timegm(&copy) - seconds);
    time->tm_zone = tzname[time->tm_isdst > 0];
    return time;
}

struct tm *gmtime_r(const time_t *seconds, struct tm *time)
{
    return c_gmtime_r(seconds, time) ? of_universal(time) : NULL;
}

struct tm *localtime_r(const time_t *seconds, struct tm *time)
{
    return c_localtime_r(seconds, time) ? of_zone(time, *seconds) : NULL;
}

/* The C library's own object is written, too: a list of races has the accesses to it. */
struct tm *gmtime(const time_t *seconds)
{
    struct tm *found = c_gmtime(seconds);
    return found ? of_universal(memcpy(&shown, found, KNOWN)) : NULL;
}

struct tm *localtime(const time_t *seconds)
{
    struct tm *found = c_localtime(seconds);
    return found ? of_zone(memcpy(&shown, found, KNOWN), *seconds) : NULL;
}

time_t mktime(struct tm *time)
{
    time_t seconds = c_mktime(time);
    of_zone(time, seconds);
    return seconds;
}

time_t timegm(struct tm *time)
{
    time_t seconds = c_timegm(time);
    of_universal(time);
    return seconds;
}

/* Appends what %z or %Z gives to a format; returns its end. */
static char *append_zone(char *end, char letter, const struct tm *time)
{
    long minutes = labs(time->tm_gmtoff) / 60;
    if (time->tm_isdst < 0 && letter == 'z')
        return end;
    if (letter == 'z')
        return end + sprintf(end, "%c%02ld%02ld", time->tm_gmtoff < 0 ? '-' : '+', minutes / 60, minutes % 60);
    return end + sprintf(end, "%.*s", LONGEST_ZONE, time->tm_zone ? time->tm_zone : "");
}

/* The C library takes the zone from the environment: %z and %Z come from the time itself. */
size_t strftime(char *text, size_t room, const char *format, const struct tm *time)
{
    char *made = malloc(strlen(format) * LONGEST_ZONE + 1), *end = made;
    if (!made)
        return 0;
    while (*format) {
        if (*format != '%' || !format[1]) {
            *end++ = *format++;
        } else if (format[1] == 'z' || format[1] == 'Z') {
            end = append_zone(end, format[1], time);
            format += 2;
        } else {
            *end++ = *format++;
            *end++ = *format++;
        }
    }
    *end = 0;
    size_t length = c_strftime(text, room, made, time);
    free(made);
    return length;
}
