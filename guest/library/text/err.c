/* Messages on the standard error stream. */
#include <err.h>
#include <errno.h>
#include <stdio.h>
#include <stdlib.h>
#include <string.h>

extern const char *dthreads_program_name;

/* One line: the program, the message, and what the error means, if there is one. */
static void say(int code, const char *format, va_list arguments)
{
    char *text = NULL;
    if (format && vasprintf(&text, format, arguments) < 0)
        text = NULL;
    fprintf(stderr, "%s: %s%s%s\n", dthreads_program_name, text ? text : format ? format : "", code && format ? ": " : "",
            code ? strerror(code) : "");
    free(text);
}

void vwarn(const char *format, va_list arguments)
{
    say(errno, format, arguments);
}

void vwarnx(const char *format, va_list arguments)
{
    say(0, format, arguments);
}

void verr(int status, const char *format, va_list arguments)
{
    say(errno, format, arguments);
    exit(status);
}

void verrx(int status, const char *format, va_list arguments)
{
    say(0, format, arguments);
    exit(status);
}

#define SAY(code) \
    do { \
        va_list arguments; \
        va_start(arguments, format); \
        say(code, format, arguments); \
        va_end(arguments); \
    } while (0)

void warn(const char *format, ...)
{
    SAY(errno);
}

void warnx(const char *format, ...)
{
    SAY(0);
}

void warnc(int code, const char *format, ...)
{
    SAY(code);
}

void err(int status, const char *format, ...)
{
    SAY(errno);
    exit(status);
}

void errx(int status, const char *format, ...)
{
    SAY(0);
    exit(status);
}

void errc(int status, int code, const char *format, ...)
{
    SAY(code);
    exit(status);
}
