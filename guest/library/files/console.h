/* The run's input and output, as the standard descriptors 0, 1 and 2 have them. */
#ifndef CONSOLE_H
#define CONSOLE_H

#include "../threads/monitor.h"

/* Kinds of the pieces of a framed output: docs/C-REFERENCE.md has the form. */
enum frame {
    FRAME_OUTPUT = 1,
    FRAME_ERROR = 2,
    FRAME_PATH = 3,
    FRAME_BYTES = 4
};

/* Whether guest/dthreads-exec started the run: what the program writes is then cut into frames. */
extern bool console_is_framed;

/* Writes in one piece, or not at all; the code is the machine's. */
uint32_t console_write(enum frame frame, const char *bytes, uint32_t length);
uint32_t console_read(void *bytes, uint32_t length, uint32_t *got);

/* The calls of POSIX on the standard descriptors. */
ssize_t console_write_some(int descriptor, const void *bytes, size_t length);
ssize_t console_read_some(void *bytes, size_t length);

/* The file system's parts of calls that have a short form without it; NULL if it isn't linked. */
__attribute__((weak)) void files_begin(void);
__attribute__((weak)) void files_deliver(void);
/* Reads a record of a file that is there at the start, or of the path of one that is wanted at the end. */
__attribute__((weak)) void files_receive(bool is_file, uint32_t name, uint32_t bytes);
/* The standard stream of the console that a descriptor has open, or -1. */
__attribute__((weak)) int files_console(int descriptor);
/* Whether a descriptor is open, and over another file than the run's input and output. */
__attribute__((weak)) bool files_is_redirected(int descriptor);
__attribute__((weak)) ssize_t files_read(int descriptor, void *bytes, size_t length);
__attribute__((weak)) ssize_t files_write(int descriptor, const void *bytes, size_t length);
__attribute__((weak)) void streams_flush(void);
/* Waits until no other thread keeps a stream that it writes and may use. */
__attribute__((weak)) void streams_claim(void);
__attribute__((weak)) extern uint64_t random_state;

#endif
