/* Streams of fopen and its kin, and places in streams. */
#include <fcntl.h>
#include <stdlib.h>
#include <string.h>
#include <unistd.h>
#include "stream.h"
#include "console.h"

enum {
    BUFFER = 4096
};

/* All streams of fopen and its kin. */
static struct stream *all;

static bool write_whole(struct stream *stream, const char *bytes, uint32_t length)
{
    while (length > 0) {
        ssize_t count = write(stream->descriptor, bytes, length);
        if (count < 0)
            break;
        bytes += count;
        length -= (uint32_t)count;
    }
    if (length > 0 && !cancel_is_due())
        stream->file.flags |= __SERR;
    return length == 0;
}

static bool drain(struct stream *stream)
{
    uint32_t length = stream->place;
    stream->place = 0;
    stream->buffers++;
    return write_whole(stream, stream->buffer, length);
}

/* Moves the descriptor back to the first byte that wasn't read. */
static void step_back(struct stream *stream)
{
    int code = errno;
    off_t left = (off_t)(stream->length - stream->place) + (stream->file.unget != 0);
    if (left > 0)
        lseek(stream->descriptor, -left, SEEK_CUR);
    stream->place = stream->length = 0;
    stream->file.unget = 0;
    errno = code;
}

bool stream_settle(struct stream *stream)
{
    if (stream->is_writing) {
        stream->is_writing = false;
        return drain(stream);
    }
    if (lseek(stream->descriptor, 0, SEEK_CUR) >= 0)
        step_back(stream);
    return true;
}

static bool put(struct stream *stream, const char *bytes, uint32_t length)
{
    if (length > stream->room - stream->place && !drain(stream))
        return false;
    if (length >= stream->room)
        return write_whole(stream, bytes, length);
    memcpy(stream->buffer + stream->place, bytes, length);
    stream->place += length;
    if (stream->mode == _IONBF || (stream->mode == _IOLBF && memchr(bytes, '\n', length)))
        return drain(stream);
    return true;
}

/* stdout has a buffer from its first text for a file on, if there is memory for one. */
static void adopt(struct stream *stream)
{
    stream->buffer = malloc(BUFFER);
    if (!stream->buffer)
        return;
    stream->room = BUFFER;
    stream->following = all;
    all = stream;
}

bool stream_write(struct stream *stream, const char *bytes, uint32_t length)
{
    stream_enter(stream);
    if (!stream->buffer)
        adopt(stream);
    if (!stream->is_writing) {
        step_back(stream);
        stream->is_writing = true;
    }
    bool is_done = put(stream, bytes, length);
    stream_leave(stream);
    return is_done;
}

/* All streams at the run's end, but for those that another thread is in. */
void streams_flush(void)
{
    monitor_enter();
    for (struct stream *stream = all; stream; stream = stream->following)
        if ((!stream->owner || stream->owner == self()) && stream->is_writing) {
            stream_settle_place(stream);
            drain(stream);
        }
    monitor_leave();
}

void streams_claim(void)
{
    monitor_enter();
    struct stream *stream = all;
    while (stream)
        stream = stream->is_writing && stream_ask(stream) ? all : stream->following;
    monitor_leave();
}

/* Opening. */

/* The flags of open for a mode of fopen, or -1. */
static int flags_of(const char *mode)
{
    int flags = *mode == 'r' ? 0 : *mode == 'w' ? O_CREAT | O_TRUNC : *mode == 'a' ? O_CREAT | O_APPEND : -1;
    if (flags < 0) {
        errno = EINVAL;
        return -1;
    }
    bool is_both = false;
    for (const char *each = mode + 1; *each && *each != ','; each++) {
        is_both = is_both || *each == '+';
        flags |= *each == 'x' ? O_EXCL : *each == 'e' ? O_CLOEXEC : 0;
    }
    return flags | (is_both ? O_RDWR : *mode == 'r' ? O_RDONLY : O_WRONLY);
}

static uint8_t rights_of(int flags)
{
    int access = flags & O_ACCMODE;
    return (uint8_t)((access != O_WRONLY ? __SRD : 0) | (access != O_RDONLY ? __SWR : 0));
}

static FILE *stream_make(int descriptor, int flags)
{
    struct stream *stream = calloc(1, sizeof *stream);
    char *buffer = malloc(BUFFER);
    if (!stream || !buffer) {
        free(stream);
        free(buffer);
        return NULL;
    }
    stream->file = (FILE)FDEV_SETUP_STREAM(stream_put, stream_get, stream_flush, rights_of(flags));
    stream->descriptor = descriptor;
    stream->buffer = buffer;
    stream->room = BUFFER;
    if (flags & O_APPEND)
        lseek(descriptor, 0, SEEK_END);
    monitor_enter();
    stream->following = all;
    all = stream;
    monitor_leave();
    return &stream->file;
}

void stream_close(struct stream *stream)
{
    struct stream **place = &all;
    monitor_enter();
    while (*place != stream)
        place = &(*place)->following;
    *place = stream->following;
    stream_settle_place(stream);
    monitor_leave();
    free(stream->buffer);
    free(stream);
}

FILE *fopen(const char *path, const char *mode)
{
    int flags = flags_of(mode);
    if (flags < 0)
        return NULL;
    int descriptor = open(path, flags, 0666);
    if (descriptor < 0)
        return NULL;
    FILE *file = stream_make(descriptor, flags);
    if (!file)
        close(descriptor);
    return file;
}

FILE *fdopen(int descriptor, const char *mode)
{
    int flags = flags_of(mode);
    int has = flags < 0 ? -1 : fcntl(descriptor, F_GETFL);
    if (has < 0)
        return NULL;
    if ((has & O_ACCMODE) != O_RDWR && rights_of(has) != rights_of(flags)) {
        errno = EINVAL;
        return NULL;
    }
    if (flags & O_APPEND)
        fcntl(descriptor, F_SETFL, has | O_APPEND);
    return stream_make(descriptor, flags);
}

/* Another file behind a stream, which keeps its descriptor. */
static bool replace(struct stream *stream, const char *path, int flags)
{
    int descriptor = open(path, flags, 0666);
    if (descriptor < 0)
        return false;
    bool is_done = descriptor == stream->descriptor || dup2(descriptor, stream->descriptor) >= 0;
    if (descriptor != stream->descriptor)
        close(descriptor);
    return is_done;
}

FILE *freopen(const char *path, const char *mode, FILE *file)
{
    struct stream *stream = stream_of(file);
    int flags = flags_of(mode);
    if (!stream || flags < 0)
        return NULL;
    stream_flush(file);
    if (path && !replace(stream, path, flags)) {
        int code = errno;
        fclose(file);
        errno = code;
        return NULL;
    }
    stream_enter(stream);
    stream->is_writing = false;
    stream->place = stream->length = 0;
    file->unget = 0;
    file->flags = rights_of(flags);
    stream_leave(stream);
    if (flags & O_APPEND)
        lseek(stream->descriptor, 0, SEEK_END);
    return file;
}

/* Places. */

static int seek_in(struct stream *stream, off_t offset, int whence)
{
    off_t behind = stream->is_writing ? 0 : (off_t)(stream->length - stream->place) + (stream->file.unget != 0);
    if (stream->is_writing && !drain(stream))
        return EOF;
    if (lseek(stream->descriptor, whence == SEEK_CUR ? offset - behind : offset, whence) < 0)
        return EOF;
    stream->is_writing = false;
    stream->place = stream->length = 0;
    stream->file.unget = 0;
    stream->file.flags &= (uint8_t)~__SEOF;
    return 0;
}

int fseeko(FILE *file, off_t offset, int whence)
{
    struct stream *stream = stream_of(file);
    if (!stream) {
        errno = ESPIPE;
        return EOF;
    }
    if (file == stdout)
        output_flush();
    stream_enter(stream);
    int code = seek_in(stream, offset, whence);
    stream_leave(stream);
    return code;
}

int fseek(FILE *file, long offset, int whence)
{
    return fseeko(file, (off_t)offset, whence);
}

off_t ftello(FILE *file)
{
    struct stream *stream = stream_of(file);
    if (!stream) {
        errno = ESPIPE;
        return -1;
    }
    if (file == stdout)
        output_flush();
    stream_enter(stream);
    off_t place = lseek(stream->descriptor, 0, SEEK_CUR);
    if (place >= 0)
        place += stream->is_writing ? (off_t)stream->place
                                    : (off_t)stream->place - (off_t)stream->length - (file->unget != 0);
    stream_leave(stream);
    return place;
}

long ftell(FILE *file)
{
    return ftello(file);
}

void rewind(FILE *file)
{
    fseeko(file, 0, SEEK_SET);
    clearerr(file);
}

int fgetpos(FILE *restrict file, fpos_t *restrict place)
{
    off_t here = ftello(file);
    if (here < 0)
        return -1;
    *place = here;
    return 0;
}

int fsetpos(FILE *file, fpos_t *place)
{
    return fseeko(file, (off_t)*place, SEEK_SET);
}
