/* Streams into memory that grows. */
#include <stdio.h>
#include <stdlib.h>
#include <string.h>
#include "../threads/monitor.h"

struct memory_stream {
    struct __file_ext file;
    char **text;
    size_t *size;
    char *bytes;
    size_t place;
    size_t length;
    size_t room;
};

static struct memory_stream *of(FILE *file)
{
    return (struct memory_stream *)file;
}

/* What the caller sees: as many bytes as were written up to the place. */
static int show(FILE *file)
{
    struct memory_stream *stream = of(file);
    *stream->text = stream->bytes;
    *stream->size = stream->place < stream->length ? stream->place : stream->length;
    return 0;
}

static bool make_room(struct memory_stream *stream, size_t wanted)
{
    if (wanted < stream->room)
        return true;
    size_t room = wanted < stream->room * 2 ? stream->room * 2 : wanted + 1;
    char *larger = realloc(stream->bytes, room);
    if (!larger)
        return false;
    memset(larger + stream->room, 0, room - stream->room);
    stream->bytes = larger;
    stream->room = room;
    return true;
}

static int put(char character, FILE *file)
{
    struct memory_stream *stream = of(file);
    if (!make_room(stream, stream->place + 1))
        return EOF;
    stream->bytes[stream->place++] = character;
    if (stream->place > stream->length)
        stream->length = stream->place;
    return (unsigned char)character;
}

static __off_t seek(FILE *file, __off_t offset, int whence)
{
    struct memory_stream *stream = of(file);
    __off_t start = whence == SEEK_SET ? 0 : whence == SEEK_CUR ? (__off_t)stream->place : (__off_t)stream->length;
    if (offset < -start) {
        errno = EINVAL;
        return -1;
    }
    stream->place = (size_t)(start + offset);
    return start + offset;
}

static int close_stream(FILE *file)
{
    show(file);
    free(of(file));
    return 0;
}

FILE *open_memstream(char **text, size_t *size)
{
    struct memory_stream *stream = calloc(1, sizeof *stream);
    char *bytes = calloc(1, 64);
    if (!stream || !bytes) {
        free(stream);
        free(bytes);
        return NULL;
    }
    *stream = (struct memory_stream){
        .file = FDEV_SETUP_EXT(put, NULL, show, close_stream, seek, NULL, _FDEV_SETUP_WRITE),
        .text = text, .size = size, .bytes = bytes, .room = 64,
    };
    show(&stream->file.cfile.file);
    return &stream->file.cfile.file;
}
