/* Whole lines in memory that grows. */
#include <stdlib.h>
#include "stream.h"

/* Keeps a character and a zero behind it; false if out of memory. */
static bool add(char **line, size_t *room, size_t length, int character)
{
    if (length + 2 > *room) {
        size_t larger = *room < 64 ? 128 : *room * 2;
        char *fresh = realloc(*line, larger);
        if (!fresh)
            return false;
        *line = fresh;
        *room = larger;
    }
    (*line)[length] = (char)character;
    (*line)[length + 1] = 0;
    return true;
}

static ssize_t read_up_to(char **line, size_t *room, int end, FILE *file)
{
    size_t length = 0;
    int character = EOF;
    if (!*line)
        *room = 0;
    while (length < INT32_MAX && (character = fgetc(file)) != EOF) {
        if (!add(line, room, length, character))
            return -1;
        length++;
        if (character == end)
            break;
    }
    return length == 0 || ferror(file) ? -1 : (ssize_t)length;
}

ssize_t getdelim(char **restrict line, size_t *restrict room, int end, FILE *restrict file)
{
    struct stream *stream = stream_of(file);
    if (!line || !room) {
        errno = EINVAL;
        return -1;
    }
    if (!stream)
        return read_up_to(line, room, end, file);
    cancel_point();
    stream_enter(stream);
    ssize_t length = read_up_to(line, room, end, file);
    stream_leave(stream);
    cancel_point();
    return length;
}

ssize_t getline(char **restrict line, size_t *restrict room, FILE *restrict file)
{
    return getdelim(line, room, '\n', file);
}
