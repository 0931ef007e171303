/* printf to a descriptor. */
#include <stdarg.h>
#include <stdio.h>
#include <stdlib.h>
#include <unistd.h>

static int write_whole(int descriptor, const char *text, int length)
{
    for (int done = 0; done < length;) {
        ssize_t count = write(descriptor, text + done, (size_t)(length - done));
        if (count < 0)
            return -1;
        done += (int)count;
    }
    return length;
}

int vdprintf(int descriptor, const char *restrict format, va_list arguments)
{
    char *text;
    int length = vasprintf(&text, format, arguments);
    if (length < 0)
        return -1;
    length = write_whole(descriptor, text, length);
    free(text);
    return length;
}

int dprintf(int descriptor, const char *restrict format, ...)
{
    va_list arguments;
    va_start(arguments, format);
    int length = vdprintf(descriptor, format, arguments);
    va_end(arguments);
    return length;
}
