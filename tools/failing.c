/* A library to be loaded ahead of the C library's (LD_PRELOAD): streams and files that fail as a row of tools/dt test rows says.
   OUTPUT_WRITES=N    standard output takes N writes, and fails from then on
   OUTPUT_MOST=N      a write to it takes N bytes at most, and each second one is interrupted first
   ERRORS_FAIL=1      standard error takes nothing
   INPUT_FAILS=1      reads of standard input fail behind its end
   INPUT_ENDLESS=1    reads of standard input go on behind its end, and leave the buffer as it was
   INPUT_LATE=N       standard input gives a byte at a time, is interrupted before each, and sleeps before its byte N, from 0 on
   ROOM=N             each other file takes N bytes, and each second write to it is interrupted first
   ENDS=N             N files can be put in the places of others
   Memory is refused to follow the path refused, and to make the part of the file unbegun. */
#define _GNU_SOURCE
#include <errno.h>
#include <fcntl.h>
#include <stdarg.h>
#include <stdlib.h>
#include <string.h>
#include <sys/syscall.h>
#include <time.h>
#include <unistd.h>

enum { FILES = 1024 };

/* How many bytes each open file took, and whether its next write is interrupted. */
static long taken[FILES];
static char is_next_interrupted[FILES];
static long writes, renames, place;
static int is_next_read_interrupted = 1;

/* The number that a setting says, or another one if it isn't given. */
static long setting(const char *name, long usual)
{
    const char *text = getenv(name);
    return text ? atol(text) : usual;
}

static long failed(int error)
{
    errno = error;
    return -1;
}

/* Whether this write to a file is the one that is interrupted. */
static int is_interrupted(int file)
{
    return file >= 0 && file < FILES && (is_next_interrupted[file] ^= 1);
}

static ssize_t write_to_output(const void *bytes, size_t count)
{
    long most = setting("OUTPUT_MOST", -1);
    if (most >= 0 && is_interrupted(1))
        return failed(EINTR);
    if (writes >= setting("OUTPUT_WRITES", writes + 1))
        return failed(ENOSPC);
    writes++;
    if (most >= 0 && count > (size_t)most)
        count = most;
    return count ? syscall(SYS_write, 1, bytes, count) : 0;
}

static ssize_t write_to_file(int file, const void *bytes, size_t count)
{
    long room = setting("ROOM", -1);
    if (room < 0 || file <= 2 || file >= FILES)
        return syscall(SYS_write, file, bytes, count);
    if (is_interrupted(file))
        return failed(EINTR);
    if (count && taken[file] == room)
        return failed(ENOSPC);
    if (count > (size_t)(room - taken[file]))
        count = room - taken[file];
    taken[file] += count;
    return syscall(SYS_write, file, bytes, count);
}

ssize_t write(int file, const void *bytes, size_t count)
{
    if (file == 1)
        return write_to_output(bytes, count);
    if (file == 2 && getenv("ERRORS_FAIL"))
        return failed(ENOSPC);
    return write_to_file(file, bytes, count);
}

ssize_t __write(int file, const void *bytes, size_t count)
{
    return write(file, bytes, count);
}

/* Reads a byte of a late input, if it is time for it. */
static ssize_t read_late(void *bytes, long late)
{
    is_next_read_interrupted ^= 1;
    if (!is_next_read_interrupted)
        return failed(EINTR);
    if (place++ == late)
        nanosleep(&(struct timespec){.tv_nsec = 200000000}, NULL);
    return syscall(SYS_read, 0, bytes, 1);
}

ssize_t read(int file, void *bytes, size_t count)
{
    long late = setting("INPUT_LATE", -1);
    if (file == 0 && late >= 0)
        return count ? read_late(bytes, late) : 0;
    ssize_t given = syscall(SYS_read, file, bytes, count);
    if (file != 0 || given != 0 || !count)
        return given;
    if (getenv("INPUT_FAILS"))
        return failed(EIO);
    return getenv("INPUT_ENDLESS") ? (ssize_t)count : 0;
}

int open(const char *path, int flags, ...)
{
    va_list more;
    va_start(more, flags);
    int mode = flags & O_CREAT ? va_arg(more, int) : 0;
    va_end(more);
    if (!strcmp(path, "unbegun.part"))
        return failed(ENOMEM);
    int file = syscall(SYS_openat, AT_FDCWD, path, flags, mode);
    if (file >= 0 && file < FILES)
        taken[file] = is_next_interrupted[file] = 0;
    return file;
}

ssize_t readlink(const char *restrict path, char *restrict target, size_t room)
{
    if (!strcmp(path, "refused"))
        return failed(ENOMEM);
    return syscall(SYS_readlink, path, target, room);
}

int rename(const char *from, const char *to)
{
    if (renames >= setting("ENDS", renames + 1))
        return failed(ENOSPC);
    renames++;
    return syscall(SYS_rename, from, to);
}
