/* The run's input and output. If guest/dthreads-exec started the run, each piece of the output has a header of two words: its
 * kind and its bytes. */
#include <string.h>
#include <unistd.h>
#include "console.h"

enum {
    HEADER = 8,
    /* Pieces of up to so many bytes are one write of the machine with their header. */
    SHORT = 512
};

bool console_is_framed;

static void header_fill(char *header, enum frame frame, uint32_t length)
{
    uint32_t words[2] = {frame, length};
    memcpy(header, words, HEADER);
}

static __attribute__((noinline)) uint32_t write_short(enum frame frame, const char *bytes, uint32_t length)
{
    char piece[HEADER + SHORT];
    header_fill(piece, frame, length);
    memcpy(piece + HEADER, bytes, length);
    return dthreads_write(piece, HEADER + length);
}

/* The header and the bytes follow each other: no other thread writes in between. */
static uint32_t write_long(enum frame frame, const char *bytes, uint32_t length)
{
    char header[HEADER];
    header_fill(header, frame, length);
    monitor_enter();
    uint32_t code = dthreads_write(header, HEADER);
    if (code == DTHREADS_DONE)
        code = dthreads_write(bytes, length);
    monitor_leave();
    return code;
}

/* More than the machine takes at once, in the monitor. */
static __attribute__((noinline)) uint32_t write_parts(enum frame frame, const char *bytes, uint32_t length)
{
    uint32_t code = DTHREADS_DONE;
    monitor_enter();
    while (length > 0 && code == DTHREADS_DONE) {
        uint32_t part = length < DTHREADS_TRANSFER ? length : DTHREADS_TRANSFER;
        code = console_is_framed ? write_long(frame, bytes, part) : dthreads_write(bytes, part);
        bytes += part;
        length -= part;
    }
    monitor_leave();
    return code;
}

uint32_t console_write(enum frame frame, const char *bytes, uint32_t length)
{
    if (console_is_framed || length > DTHREADS_TRANSFER)
        return length <= SHORT ? write_short(frame, bytes, length) : write_parts(frame, bytes, length);
    return dthreads_write(bytes, length);
}

uint32_t console_read(void *bytes, uint32_t length, uint32_t *got)
{
    return dthreads_read(bytes, length < DTHREADS_TRANSFER ? length : DTHREADS_TRANSFER, got);
}

ssize_t console_write_some(int descriptor, const void *bytes, size_t length)
{
    uint32_t part = length < DTHREADS_TRANSFER ? (uint32_t)length : DTHREADS_TRANSFER;
    uint32_t code = console_write(descriptor == STDERR_FILENO ? FRAME_ERROR : FRAME_OUTPUT, bytes, part);
    if (code == DTHREADS_DONE)
        return (ssize_t)part;
    errno = code == DTHREADS_BAD_ADDRESS ? EFAULT : ENOSPC;
    return -1;
}

ssize_t console_read_some(void *bytes, size_t length)
{
    uint32_t got = 0;
    if (console_read(bytes, length < DTHREADS_TRANSFER ? (uint32_t)length : DTHREADS_TRANSFER, &got) == DTHREADS_DONE)
        return (ssize_t)got;
    errno = EFAULT;
    return -1;
}
