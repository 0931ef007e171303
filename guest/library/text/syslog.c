/* A log that nobody keeps. */
#include <stdio.h>
#include <syslog.h>

extern const char *dthreads_program_name;

static const char *title;
static int options, mask = 0xff;

void openlog(const char *name, int flags, int facility)
{
    (void)facility;
    title = name;
    options = flags;
}

void closelog(void)
{
    title = NULL;
    options = 0;
}

int setlogmask(int fresh)
{
    int old = mask;
    if (fresh)
        mask = fresh;
    return old;
}

void vsyslog(int priority, const char *format, va_list arguments)
{
    char text[512];
    if (!(options & LOG_PERROR) || !(mask & LOG_MASK(priority & 7)))
        return;
    vsnprintf(text, sizeof text, format, arguments);
    fprintf(stderr, "%s: %s\n", title ? title : dthreads_program_name, text);
}

void syslog(int priority, const char *format, ...)
{
    va_list arguments;
    va_start(arguments, format);
    vsyslog(priority, format, arguments);
    va_end(arguments);
}
