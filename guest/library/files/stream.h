/* Streams over descriptors: the three standard ones and those of fopen and its kin. */
#ifndef STREAM_H
#define STREAM_H

#include <stdio.h>
#include "../threads/monitor.h"

struct stream {
    FILE file;
    int descriptor;
    /* The buffer has text that is to be written, from its start up to `place`; else bytes that were read, from `place` up to
     * `length`. */
    bool is_writing;
    /* One of _IOFBF, _IOLBF and _IONBF. */
    uint8_t mode;
    char *buffer;
    uint32_t room, place, length;
    /* Who keeps the stream between its calls: the next byte's place and the end of what is in the buffer, or of its room, are then
     * in these, and `place` is old. */
    struct dthreads_thread *keeper;
    char *next, *end;
    /* Who used it last, how often in a row, how many buffers it went through, and after how many calls the stream may be kept. */
    struct dthreads_thread *user;
    uint32_t uses, buffers, patience;
    /* Who is in a call on the stream, or has it by flockfile. */
    struct dthreads_thread *owner;
    uint32_t count;
    struct dthreads_queue waiters;
    struct stream *following;
};

/* The streams that this thread keeps between its calls: variables of their own, which the compiler reaches by one instruction. */
extern __thread struct stream *kept_reading;
extern __thread struct stream *kept_writing;
/* Calls that put a text into a kept stream since the thread's last call that entered one: they take time, too. */
extern __thread uint32_t kept_calls;

/* The stream over a descriptor that a FILE is, or NULL for those of sprintf and the like. */
struct stream *stream_of(FILE *file);
/* Between these a thread has the stream and is in the monitor; calls may nest. */
void stream_enter(struct stream *stream);
void stream_leave(struct stream *stream);
/* Brings `place` up to date, in the monitor: nobody keeps the stream then. */
void stream_settle_place(struct stream *stream);
/* Asks for a stream that another thread keeps and may use: true after a wait, when all has to be looked at again. */
bool stream_ask(struct stream *stream);
int stream_put(char character, FILE *file);
int stream_get(FILE *file);
int stream_flush(FILE *file);

/* Of the streams of fopen and its kin, which are linked by need. */
__attribute__((weak)) bool stream_write(struct stream *stream, const char *bytes, uint32_t length);
/* Writes what is to be written, or moves the descriptor back to the first byte that wasn't read. */
__attribute__((weak)) bool stream_settle(struct stream *stream);
__attribute__((weak)) void stream_close(struct stream *stream);

#endif
