/* What stdio_ext.h tells of a stream. Text of a standard stream of output is written when its call ends. */
#include <stdio_ext.h>
#include <string.h>
#include "stream.h"

/* A stream's own data as they are, in the monitor; zeros for a stream that has none. */
static struct stream looked_at(FILE *file)
{
    struct stream found = {.file = {.flags = file->flags}}, *stream = stream_of(file);
    if (stream) {
        stream_enter(stream);
        found = *stream;
        stream_leave(stream);
    }
    return found;
}

size_t __fbufsize(FILE *file)
{
    return looked_at(file).room;
}

size_t __fpending(FILE *file)
{
    struct stream stream = looked_at(file);
    return stream.is_writing ? stream.place : 0;
}

/* How many bytes were read from the descriptor and not yet by the program. */
size_t __freadahead(FILE *file)
{
    struct stream stream = looked_at(file);
    return stream.is_writing ? 0 : stream.length - stream.place + (file->unget != 0);
}

/* These bytes, or NULL if there are none; a character that was pushed back isn't among them, so it must be read first. */
const char *__freadptr(FILE *file, size_t *length)
{
    struct stream stream = looked_at(file);
    if (stream.is_writing || stream.place == stream.length || file->unget)
        return NULL;
    *length = stream.length - stream.place;
    return stream.buffer + stream.place;
}

/* Skips some of them. */
void __freadptrinc(FILE *file, size_t count)
{
    struct stream *stream = stream_of(file);
    if (stream) {
        stream_enter(stream);
        stream->place += count;
        stream_leave(stream);
    }
}

/* Reading alone, or last. */
int __freading(FILE *file)
{
    struct stream stream = looked_at(file);
    return !(stream.file.flags & __SWR) || (!stream.is_writing && stream.length > 0);
}

int __fwriting(FILE *file)
{
    struct stream stream = looked_at(file);
    return !(stream.file.flags & __SRD) || stream.is_writing;
}

int __freadable(FILE *file)
{
    return (file->flags & __SRD) != 0;
}

int __fwritable(FILE *file)
{
    return (file->flags & __SWR) != 0;
}

int __flbf(FILE *file)
{
    return looked_at(file).mode == _IOLBF;
}

void __fpurge(FILE *file)
{
    struct stream *stream = stream_of(file);
    if (stream) {
        stream_enter(stream);
        stream->place = stream->length = 0;
        stream_leave(stream);
    }
    file->unget = 0;
}

void __fseterr(FILE *file)
{
    file->flags |= __SERR;
}

void _flushlbf(void)
{
    fflush(NULL);
}

/* Streams always lock. */
int __fsetlocking(FILE *file, int type)
{
    (void)file;
    (void)type;
    return FSETLOCKING_INTERNAL;
}
