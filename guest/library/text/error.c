/* GNU's messages on the standard error stream. */
#include <error.h>
#include <stdarg.h>
#include <stdbool.h>
#include <stdio.h>
#include <stdlib.h>
#include <string.h>

extern const char *dthreads_program_name;

void (*error_print_progname)(void);
unsigned error_message_count;
int error_one_per_line;

/* The last place that error_at_line told of. */
static const char *last_file;
static unsigned last_line;

/* Writes one line in one piece: the program, the place, the message, and what the error means if there is one. */
static void say(int code, const char *place, const char *format, va_list arguments)
{
    char *text = NULL;
    if (vasprintf(&text, format, arguments) < 0)
        text = NULL;
    fflush(stdout);
    if (error_print_progname)
        error_print_progname();
    fprintf(stderr, "%s%s%s%s%s%s\n", error_print_progname ? "" : dthreads_program_name, error_print_progname ? "" : ":", place,
            text ? text : format, code ? ": " : "", code ? strerror(code) : "");
    free(text);
    error_message_count++;
}

void error(int status, int code, const char *format, ...)
{
    va_list arguments;
    va_start(arguments, format);
    say(code, error_print_progname ? "" : " ", format, arguments);
    va_end(arguments);
    if (status)
        exit(status);
}

/* Whether this place was told of last. */
static bool is_told(const char *file, unsigned line)
{
    bool is_last = line == last_line && (file == last_file || (file && last_file && strcmp(file, last_file) == 0));
    last_file = file;
    last_line = line;
    return is_last;
}

void error_at_line(int status, int code, const char *file, unsigned line, const char *format, ...)
{
    if (error_one_per_line && is_told(file, line))
        return;
    char *place = NULL;
    if (file && asprintf(&place, "%s:%u: ", file, line) < 0)
        place = NULL;
    va_list arguments;
    va_start(arguments, format);
    say(code, place ? place : " ", format, arguments);
    va_end(arguments);
    free(place);
    if (status)
        exit(status);
}
