/* Closing a stream of any kind. */
#include <stdlib.h>
#include <unistd.h>
#include "stream.h"

__attribute__((weak)) extern int close(int);

/* A standard stream stays, closed. */
static int close_standard(struct stream *stream)
{
    int code = stream_flush(&stream->file);
    stream_enter(stream);
    stream->file.flags &= (uint8_t)~(__SRD | __SWR);
    stream->place = stream->length = 0;
    stream_leave(stream);
    return close && close(stream->descriptor) < 0 ? EOF : code;
}

static int close_file(struct stream *stream)
{
    int code = stream_flush(&stream->file);
    int descriptor = stream->descriptor;
    stream_close(stream);
    return close(descriptor) < 0 ? EOF : code;
}

/* A stream whose functions others made. */
static int close_other(FILE *file)
{
    int code = file->flush ? file->flush(file) : 0;
    if (file->flags & __SCLOSE)
        code |= ((struct __file_close *)file)->close(file);
    return code ? EOF : 0;
}

int fclose(FILE *file)
{
    struct stream *stream = stream_of(file);
    if (!stream)
        return close_other(file);
    if (!(file->flags & (__SRD | __SWR)))
        return EOF;
    return file == stdin || file == stdout || file == stderr ? close_standard(stream) : close_file(stream);
}
