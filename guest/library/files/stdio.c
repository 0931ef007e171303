/* The three standard streams, and the calls that all streams share. A call's text on a standard stream is written in one piece
 * when the call ends, so lines of threads stay whole. While one thread lives, text on stdout stays in a buffer up to the end of
 * its line. If the program put a file in the place of the run's output, stdout is a stream like those of fopen. */
#include <stdarg.h>
#include <string.h>
#include <unistd.h>
#include "stream.h"
#include "console.h"

#undef putc
#undef putchar
#undef getc
#undef getchar

enum {
    PIECE = 512,
    LINE = 4096,
    INPUT = 4096
};

/* The text of one call so far. */
struct piece {
    uint32_t length;
    /* Some of it was written: the rest has to follow before another thread writes. */
    bool is_begun;
    char bytes[PIECE];
};

static __thread struct piece *piece;

static struct {
    uint32_t length;
    char bytes[LINE];
} line;

static char input[INPUT];

static struct stream input_stream = {
    .file = FDEV_SETUP_STREAM(NULL, stream_get, stream_flush, _FDEV_SETUP_READ), .buffer = input, .room = INPUT,
};
static struct stream output_stream = {
    .file = FDEV_SETUP_STREAM(stream_put, NULL, stream_flush, _FDEV_SETUP_WRITE), .descriptor = STDOUT_FILENO,
};
static struct stream error_stream = {
    .file = FDEV_SETUP_STREAM(stream_put, NULL, stream_flush, _FDEV_SETUP_WRITE), .descriptor = STDERR_FILENO,
};

FILE *const stdin = &input_stream.file;
FILE *const stdout = &output_stream.file;
FILE *const stderr = &error_stream.file;

/* A program without it pays nothing for it: text on a standard stream is one turn. */
__attribute__((weak)) void flockfile(FILE *);

struct stream *stream_of(FILE *file)
{
    return file->flush == stream_flush ? (struct stream *)file : NULL;
}

static void fail(FILE *file)
{
    hint_enter();
    file->flags |= __SERR;
    hint_leave();
}

/* Writes whole; false if the output is full. */
static __attribute__((noinline)) bool write_all(int descriptor, const char *bytes, uint32_t length)
{
    int console = files_console ? files_console(descriptor) : descriptor;
    if (console > STDIN_FILENO)
        return console_write(console == STDERR_FILENO ? FRAME_ERROR : FRAME_OUTPUT, bytes, length) == DTHREADS_DONE;
    while (length > 0) {
        ssize_t count = files_write ? files_write(descriptor, bytes, length) : -1;
        if (count < 0)
            return false;
        bytes += count;
        length -= (uint32_t)count;
    }
    return true;
}

__attribute__((noinline)) void output_flush(void)
{
    if (line.length > 0) {
        uint32_t length = line.length;
        line.length = 0;
        if (!write_all(STDOUT_FILENO, line.bytes, length))
            fail(stdout);
    }
}

/* Text of a lone thread. */
static bool keep(const char *bytes, uint32_t length)
{
    if (length >= LINE - line.length) {
        output_flush();
        if (length >= LINE)
            return write_all(STDOUT_FILENO, bytes, length);
    }
    memcpy(line.bytes + line.length, bytes, length);
    line.length += length;
    if (memchr(bytes, '\n', length))
        output_flush();
    return true;
}

static bool emit_now(struct stream *stream, const char *bytes, uint32_t length)
{
    if (stream == &output_stream && alone())
        return keep(bytes, length);
    output_flush();
    return write_all(stream->descriptor, bytes, length);
}

/* As above, when no other thread has the stream by flockfile. */
static bool emit_in_turn(struct stream *stream, const char *bytes, uint32_t length)
{
    if (!flockfile || alone())
        return emit_now(stream, bytes, length);
    stream_enter(stream);
    bool is_done = emit_now(stream, bytes, length);
    stream_leave(stream);
    return is_done;
}

/* Writes what a stream that was over a file still has in its buffer, or moves back as far as nobody has read. */
static bool settle(struct stream *stream)
{
    stream_enter(stream);
    bool is_done = stream_settle(stream);
    stream_leave(stream);
    return is_done;
}

static __attribute__((noinline)) bool emit(struct stream *stream, const char *bytes, uint32_t length)
{
    if (length == 0)
        return true;
    if (stream->is_writing)
        settle(stream);
    bool is_done = stream->file.flags & __SWR && emit_in_turn(stream, bytes, length);
    if (!is_done)
        fail(&stream->file);
    if (self() && self()->asked) {
        monitor_enter();
        monitor_leave();
    }
    return is_done;
}

/* True for the standard streams of output, but for a stdout that is over a file, if the program has streams over files. */
static bool is_output(const FILE *file)
{
    return file == stderr || (file == stdout && !(stream_write && files_is_redirected && files_is_redirected(STDOUT_FILENO)));
}

static bool put_text(struct stream *stream, const char *bytes, uint32_t length)
{
    if (is_output(&stream->file))
        return emit(stream, bytes, length);
    if (stream == &output_stream)
        output_flush();
    return stream_write(stream, bytes, length);
}

/* The text of a call, which is a cancellation point where it begins and where it ends. */
static bool put_shared(struct stream *stream, const char *bytes, uint32_t length)
{
    cancel_point();
    bool is_done = put_text(stream, bytes, length);
    cancel_point();
    return is_done;
}

int stream_put(char character, FILE *file)
{
    struct stream *stream = (struct stream *)file;
    if (!piece || !is_output(file))
        return put_text(stream, &character, 1) ? 0 : EOF;
    if (piece->length == PIECE) {
        if (!piece->is_begun)
            monitor_enter();
        piece->is_begun = true;
        emit(stream, piece->bytes, PIECE);
        piece->length = 0;
    }
    piece->bytes[piece->length++] = character;
    return 0;
}

int stream_flush(FILE *file)
{
    struct stream *stream = (struct stream *)file;
    bool is_console = is_output(file);
    if (is_console || file == stdout || !stream_settle)
        output_flush();
    if (!stream_settle || (is_console && !stream->is_writing))
        return file->flags & __SERR && is_console ? EOF : 0;
    return settle(stream) ? 0 : EOF;
}

static void piece_begin(struct piece *begun)
{
    begun->length = 0;
    begun->is_begun = false;
    piece = begun;
}

static void piece_end(FILE *stream)
{
    struct piece *ended = piece;
    piece = NULL;
    emit((struct stream *)stream, ended->bytes, ended->length);
    if (ended->is_begun)
        monitor_leave();
}

/* Threads share the run's input and what fopen gives; the streams of sprintf and its kin are a thread's own. A call on a shared stream is a
 * cancellation point where it begins and, since it ends without success if it is cancelled while it waits, where it ends. */

static void shared_begin(FILE *file)
{
    struct stream *stream = stream_of(file);
    if (stream) {
        cancel_point();
        stream_enter(stream);
    }
}

static void shared_end(FILE *file)
{
    struct stream *stream = stream_of(file);
    if (stream) {
        stream_leave(stream);
        cancel_point();
    }
}

int __d_vfprintf(FILE *, const char *, va_list);
int __d_vfscanf(FILE *, const char *, va_list);
int dthreads_vfprintf(FILE *, const char *, va_list);
int dthreads_vfscanf(FILE *, const char *, va_list);

static int print_shared(FILE *stream, const char *format, va_list arguments)
{
    shared_begin(stream);
    int count = dthreads_vfprintf(stream, format, arguments);
    shared_end(stream);
    return count;
}

int __wrap_vfprintf(FILE *stream, const char *format, va_list arguments)
{
    if (!is_output(stream) || piece)
        return print_shared(stream, format, arguments);
    struct piece here;
    cancel_point();
    piece_begin(&here);
    int count = dthreads_vfprintf(stream, format, arguments);
    piece_end(stream);
    return stream->flags & __SERR ? EOF : count;
}

static __attribute__((noinline)) int put_slowly(int character, FILE *file)
{
    unsigned char byte = (unsigned char)character;
    if (!(file->flags & __SWR))
        return EOF;
    if (!stream_of(file))
        return file->put((char)byte, file) < 0 ? EOF : byte;
    return put_shared((struct stream *)file, (char *)&byte, 1) ? byte : EOF;
}

int fputc(int character, FILE *file)
{
    hint_enter();
    struct stream *stream = kept_writing;
    char *place;
    if ((FILE *)stream != file || (place = stream->next) == stream->end) {
        hint_leave();
        return put_slowly(character, file);
    }
    character = (unsigned char)character;
    __asm__("" : "+r"(character));
    *place = (char)character;
    stream->next = place + 1;
    hint_leave();
    return character;
}

int putc(int, FILE *) __attribute__((alias("fputc")));

int putchar(int character)
{
    return fputc(character, stdout);
}

/* Puts bytes into a stream that the thread keeps, if there is room for all of them. */
static bool put_kept(const char *bytes, size_t length, FILE *file)
{
    hint_enter();
    struct stream *stream = kept_writing;
    bool has_room = (FILE *)stream == file && length <= (size_t)(stream->end - stream->next);
    if (has_room) {
        memcpy(stream->next, bytes, length);
        stream->next += length;
        kept_calls++;
    }
    hint_leave();
    return has_room;
}

/* How many bytes were put. */
static size_t put_bytes(const char *bytes, size_t length, FILE *file)
{
    if (put_kept(bytes, length, file))
        return length;
    struct stream *stream = stream_of(file);
    if (!(file->flags & __SWR)) {
        fail(file);
        return 0;
    }
    if (stream)
        return put_shared(stream, bytes, (uint32_t)length) ? length : 0;
    for (size_t i = 0; i < length; i++)
        if (fputc(bytes[i], file) == EOF)
            return i;
    return length;
}

int fputs(const char *text, FILE *stream)
{
    size_t length = strlen(text);
    return put_bytes(text, length, stream) == length ? 0 : EOF;
}

/* A line on a stdout that is over a file. */
static int put_line(const char *text)
{
    shared_begin(stdout);
    bool is_done = fputs(text, stdout) != EOF && fputc('\n', stdout) != EOF;
    shared_end(stdout);
    return is_done ? 0 : EOF;
}

int puts(const char *text)
{
    struct piece here;
    if (!is_output(stdout))
        return put_line(text);
    cancel_point();
    piece_begin(&here);
    for (; *text; text++)
        stream_put(*text, stdout);
    stream_put('\n', stdout);
    piece_end(stdout);
    return stdout->flags & __SERR ? EOF : 0;
}

size_t fwrite(const void *bytes, size_t size, size_t count, FILE *stream)
{
    size_t all;
    if (size == 0 || count == 0)
        return 0;
    if (__builtin_mul_overflow(size, count, &all)) {
        fail(stream);
        errno = EFAULT;
        return 0;
    }
    return put_bytes(bytes, all, stream) / size;
}

int fflush(FILE *file)
{
    if (file && stream_of(file) != NULL)
        return stream_flush(file);
    output_flush();
    if (file && file->flush)
        return file->flush(file);
    if (!file && streams_claim)
        streams_claim();
    if (!file && streams_flush)
        streams_flush();
    return 0;
}

int setvbuf(FILE *file, char *buffer, int mode, size_t size)
{
    struct stream *stream = stream_of(file);
    (void)buffer;
    (void)size;
    if (stream) {
        stream_enter(stream);
        stream->mode = (uint8_t)mode;
        stream_leave(stream);
    }
    return 0;
}

void setbuf(FILE *stream, char *buffer)
{
    setvbuf(stream, buffer, buffer ? _IOFBF : _IONBF, 0);
}

void setbuffer(FILE *stream, char *buffer, size_t size)
{
    setvbuf(stream, buffer, buffer ? _IOFBF : _IONBF, size);
}

void setlinebuf(FILE *stream)
{
    setvbuf(stream, NULL, _IOLBF, 0);
}

int fileno(FILE *file)
{
    struct stream *stream = stream_of(file);
    if (stream && file->flags & (__SRD | __SWR))
        return stream->descriptor;
    errno = EBADF;
    return -1;
}

/* Input. */

static ssize_t read_file(struct stream *stream, void *bytes, uint32_t length)
{
    return files_read ? files_read(stream->descriptor, bytes, length) : -1;
}

/* Into the stream's buffer, which is the library's. */
static ssize_t read_inside(struct stream *stream)
{
    hint_enter();
    ssize_t count = read_file(stream, stream->buffer, stream->room);
    hint_leave();
    return count;
}

/* Into memory of the caller. */
static ssize_t read_outside(void *bytes, uint32_t length)
{
    hint_leave();
    ssize_t count = console_read_some(bytes, length);
    hint_enter();
    return count;
}

static ssize_t read_some(struct stream *stream, void *bytes, uint32_t length)
{
    int console = files_console ? files_console(stream->descriptor) : stream->descriptor;
    bool is_inside = bytes == stream->buffer;
    if (console == STDIN_FILENO)
        return is_inside ? console_read_some(bytes, length) : read_outside(bytes, length);
    return is_inside ? read_inside(stream) : read_file(stream, bytes, length);
}

/* Reads into the stream's buffer, or to another place; how many bytes came. */
static uint32_t fetch(struct stream *stream, void *bytes, uint32_t length)
{
    if (stream->file.flags & __SEOF)
        return 0;
    if (stream == &input_stream)
        output_flush();
    ssize_t count = read_some(stream, bytes, length);
    if (count <= 0 && !cancel_is_due())
        stream->file.flags |= count < 0 ? __SERR : __SEOF;
    return count > 0 ? (uint32_t)count : 0;
}

static bool fill(struct stream *stream)
{
    if (stream->is_writing)
        stream_settle(stream);
    stream->place = 0;
    stream->buffers++;
    stream->length = fetch(stream, stream->buffer, stream->room);
    return stream->length > 0;
}

/* Reads in the monitor, so that threads share one place in the input. */
int stream_get(FILE *file)
{
    struct stream *stream = (struct stream *)file;
    int character = _FDEV_EOF;
    stream_enter(stream);
    if ((!stream->is_writing && stream->place < stream->length) || fill(stream))
        character = (unsigned char)stream->buffer[stream->place++];
    else if (file->flags & __SERR)
        character = _FDEV_ERR;
    stream_leave(stream);
    return character;
}

static __attribute__((noinline)) int get_slowly(FILE *stream)
{
    if (!(stream->flags & __SRD))
        return EOF;
    shared_begin(stream);
    int character;
    if (stream->unget) {
        character = (unsigned char)stream->unget;
        stream->unget = 0;
    } else {
        character = stream->get(stream);
    }
    if (character < 0 && !cancel_is_due())
        stream->flags |= character == _FDEV_EOF ? __SEOF : __SERR;
    shared_end(stream);
    return character < 0 ? EOF : character;
}

int fgetc(FILE *file)
{
    hint_enter();
    struct stream *stream = kept_reading;
    char *place;
    if ((FILE *)stream != file || (place = stream->next) == stream->end) {
        hint_leave();
        return get_slowly(file);
    }
    int character = (unsigned char)*place;
    stream->next = place + 1;
    hint_leave();
    return character;
}

int getc(FILE *) __attribute__((alias("fgetc")));

int getchar(void)
{
    return fgetc(stdin);
}

/* Steps back in a stream that the thread keeps, if the byte is the one that was read last. */
static bool step_back(int character, FILE *file)
{
    hint_enter();
    struct stream *stream = kept_reading;
    bool is_same = (FILE *)stream == file && stream->next != stream->buffer && stream->next[-1] == (char)character;
    if (is_same)
        stream->next--;
    hint_leave();
    return is_same;
}

int ungetc(int character, FILE *stream)
{
    if (character == EOF)
        return EOF;
    if (step_back(character, stream))
        return (unsigned char)character;
    shared_begin(stream);
    bool is_free = !stream->unget;
    if (is_free) {
        stream->unget = (__ungetc_t)((unsigned char)character | 0x100);
        stream->flags &= (uint8_t)~__SEOF;
    }
    shared_end(stream);
    return is_free ? (unsigned char)character : EOF;
}

/* What is left in the buffer of a stream, up to so many bytes. */
static size_t copy_input(struct stream *stream, char *bytes, size_t wanted)
{
    if (!stream || stream->is_writing)
        return 0;
    size_t left = stream->length - stream->place;
    size_t count = left < wanted ? left : wanted;
    hint_copy(bytes, stream->buffer + stream->place, count);
    stream->place += (uint32_t)count;
    return count;
}

/* The same, up to the end of a line. */
static size_t copy_line(struct stream *stream, char *text, size_t wanted)
{
    if (!stream || stream->is_writing)
        return 0;
    const char *start = stream->buffer + stream->place;
    size_t left = stream->length - stream->place;
    const char *end = memchr(start, '\n', left < wanted ? left : wanted);
    return copy_input(stream, text, end ? (size_t)(end - start) : wanted);
}

char *fgets(char *text, int size, FILE *file)
{
    int length = 0;
    shared_begin(file);
    while (length < size - 1) {
        int character = fgetc(file);
        if (character == EOF)
            break;
        text[length++] = (char)character;
        if (character == '\n')
            break;
        length += (int)copy_line(stream_of(file), text + length, (size_t)(size - 1 - length));
    }
    shared_end(file);
    if (length == 0 && size != 1)
        return NULL;
    text[length] = 0;
    return text;
}

/* Whole bufferfuls go straight to their place. */
static size_t copy_long(struct stream *stream, char *bytes, size_t wanted)
{
    if (!stream || wanted < stream->room || stream->is_writing || stream->place < stream->length)
        return 0;
    return fetch(stream, bytes, wanted < INT32_MAX ? (uint32_t)wanted : INT32_MAX);
}

size_t fread(void *bytes, size_t size, size_t count, FILE *file)
{
    char *place = bytes;
    size_t length = 0, wanted;
    if (__builtin_mul_overflow(size, count, &wanted))
        wanted = SIZE_MAX;
    if (wanted == 0)
        return 0;
    shared_begin(file);
    while (length < wanted) {
        int character = fgetc(file);
        if (character == EOF)
            break;
        place[length++] = (char)character;
        length += copy_input(stream_of(file), place + length, wanted - length);
        length += copy_long(stream_of(file), place + length, wanted - length);
    }
    shared_end(file);
    return length / size;
}

int __wrap_vfscanf(FILE *stream, const char *format, va_list arguments)
{
    shared_begin(stream);
    int count = dthreads_vfscanf(stream, format, arguments);
    shared_end(stream);
    return count;
}

/* Those that need no lock take it all the same. A program may have its own. */
#define UNLOCKED(result, name, ...) __attribute__((weak, alias(#name))) result name##_unlocked(__VA_ARGS__)
UNLOCKED(int, getc, FILE *);
UNLOCKED(int, getchar, void);
UNLOCKED(int, putc, int, FILE *);
UNLOCKED(int, putchar, int);
UNLOCKED(int, fgetc, FILE *);
UNLOCKED(int, fputc, int, FILE *);
UNLOCKED(int, fputs, const char *, FILE *);
UNLOCKED(char *, fgets, char *, int, FILE *);
UNLOCKED(size_t, fread, void *, size_t, size_t, FILE *);
UNLOCKED(size_t, fwrite, const void *, size_t, size_t, FILE *);
UNLOCKED(int, fflush, FILE *);
UNLOCKED(int, fileno, FILE *);
