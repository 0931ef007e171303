/* Descriptors and open files. A call on a standard descriptor that still has the run's input or output takes no monitor. */
#include <stdarg.h>
#include <stdlib.h>
#include <signal.h>
#include <unistd.h>
#include <sys/uio.h>
#include "files.h"

struct descriptor {
    struct open_file *file;
    bool closes_on_exec;
};

static struct descriptor table[DESCRIPTORS];
static mode_t mask = 022;

int files_finish(int code)
{
    monitor_finish();
    if (code >= 0)
        return code;
    /* (a call on a stream ends it first) */
    if (code == -ECANCELED)
        cancel_point();
    if (code == -EPIPE)
        raise(SIGPIPE);
    errno = -code;
    return -1;
}

struct open_file *file_of(int descriptor)
{
    return descriptor >= 0 && descriptor < DESCRIPTORS ? table[descriptor].file : NULL;
}

int files_console(int descriptor)
{
    struct open_file *file = file_of(descriptor);
    return file && file->node->kind == CONSOLE ? file->node->stream : -1;
}

bool files_is_redirected(int descriptor)
{
    struct open_file *file = file_of(descriptor);
    return file && file->node->kind != CONSOLE;
}

/* The lowest free descriptor from `least` on. */
static int free_descriptor(int least)
{
    for (int i = least; i < DESCRIPTORS; i++)
        if (!table[i].file)
            return i;
    return -EMFILE;
}

static void file_drop(struct open_file *file)
{
    if (--file->references > 0)
        return;
    if (file->node->kind == PIPE)
        pipe_detach(file);
    file->node->opens--;
    node_release(file->node);
    free(file);
}

static void install(int descriptor, struct open_file *file, bool closes_on_exec)
{
    struct open_file *old = table[descriptor].file;
    file->references++;
    table[descriptor] = (struct descriptor){file, closes_on_exec};
    if (old)
        file_drop(old);
}

int node_open(struct node *node, int flags)
{
    int descriptor = free_descriptor(0);
    if (descriptor < 0)
        return descriptor;
    struct open_file *file = calloc(1, sizeof *file);
    if (!file)
        return -ENOMEM;
    file->node = node;
    file->flags = flags & (O_ACCMODE | O_APPEND | O_NONBLOCK | O_SYNC);
    node->opens++;
    if (node->kind == PIPE)
        pipe_attach(file);
    install(descriptor, file, flags & O_CLOEXEC);
    return descriptor;
}

/* Opening. */

/* The node behind a name of /dev that stands for a standard descriptor. */
static struct node *behind(struct node *node)
{
    if (node->kind != ALIAS)
        return node;
    struct open_file *file = file_of(node->stream);
    return file ? file->node : NULL;
}

static int open_existing(struct node *node, int flags, bool wants_directory)
{
    bool writes = (flags & O_ACCMODE) != O_RDONLY;
    node = behind(node);
    if (!node)
        return -ENXIO;
    if ((flags & (O_CREAT | O_EXCL)) == (O_CREAT | O_EXCL))
        return -EEXIST;
    if (node->kind == DIRECTORY && (writes || flags & O_CREAT))
        return -EISDIR;
    if (node->kind != DIRECTORY && (wants_directory || flags & O_DIRECTORY))
        return -ENOTDIR;
    int descriptor = node_open(node, flags);
    if (descriptor >= 0 && flags & O_TRUNC && writes && node->kind == REGULAR)
        node_resize(node, 0);
    return descriptor;
}

static int open_new(struct place *place, int flags, mode_t mode)
{
    if (!(flags & O_CREAT) || place->directory->links == 0)
        return -ENOENT;
    if (place->wants_directory)
        return -EISDIR;
    int descriptor = free_descriptor(0);
    if (descriptor < 0)
        return descriptor;
    struct node *node = node_make(REGULAR, mode & ~mask & PERMISSIONS);
    if (!node)
        return -ENOSPC;
    int code = entry_add(place->directory, place->name, place->length, node);
    if (code == 0)
        return node_open(node, flags);
    node_release(node);
    return code;
}

/* Moves a place whose name is a symbolic link to what the link stands for, if it may be opened. */
static int link_open(struct place *place, int flags)
{
    struct node *node = place_node(place);
    if (!node || node->kind != LINK)
        return 0;
    if ((flags & (O_CREAT | O_EXCL)) == (O_CREAT | O_EXCL))
        return -EEXIST;
    return flags & O_NOFOLLOW && !place->wants_directory ? -ELOOP : place_follow(place);
}

int file_open(int base, const char *path, int flags, mode_t mode)
{
    struct place place;
    int code = path_place(base, path, &place);
    if ((flags & O_ACCMODE) == O_ACCMODE)
        return -EINVAL;
    if (code == 0)
        code = link_open(&place, flags);
    if (code < 0)
        return code;
    struct node *node = place_node(&place);
    return node ? open_existing(node, flags, place.wants_directory) : open_new(&place, flags, mode);
}

#define OPEN(base) \
    do { \
        mode_t mode = 0; \
        if (flags & O_CREAT) { \
            va_list arguments; \
            va_start(arguments, flags); \
            mode = va_arg(arguments, mode_t); \
            va_end(arguments); \
        } \
        monitor_enter(); \
        return files_finish(file_open(base, path, flags, mode)); \
    } while (0)

int open(const char *path, int flags, ...)
{
    OPEN(HERE);
}

int openat(int base, const char *path, int flags, ...)
{
    OPEN(base);
}

int creat(const char *path, mode_t mode)
{
    return open(path, O_WRONLY | O_CREAT | O_TRUNC, mode);
}

static int close_here(int descriptor)
{
    struct open_file *file = file_of(descriptor);
    if (!file)
        return -EBADF;
    table[descriptor].file = NULL;
    file_drop(file);
    return 0;
}

int close(int descriptor)
{
    monitor_enter();
    return files_finish(close_here(descriptor));
}

mode_t umask(mode_t mode)
{
    monitor_enter();
    mode_t old = mask;
    mask = mode & 0777;
    monitor_leave();
    return old;
}

/* Reading and writing. */

static ssize_t read_regular(struct open_file *file, char *bytes, size_t length, uint32_t *place)
{
    uint32_t count = node_read(file->node, *place, bytes, (uint32_t)length);
    *place += count;
    file->node->accessed = file_time();
    return (ssize_t)count;
}

static ssize_t read_console(struct open_file *file, void *bytes, size_t length)
{
    uint32_t got = 0;
    if (file->node->stream != STDIN_FILENO)
        return -EBADF;
    return console_read(bytes, (uint32_t)length, &got) == DTHREADS_DONE ? (ssize_t)got : -EFAULT;
}

ssize_t file_read(struct open_file *file, void *bytes, size_t length, uint32_t *place)
{
    if (!may_read(file))
        return -EBADF;
    if (length > INT_MAX)
        length = INT_MAX;
    switch (file->node->kind) {
    case REGULAR:
        return read_regular(file, bytes, length, place);
    case CONSOLE:
        return read_console(file, bytes, length);
    case PIPE:
        return length ? pipe_read(file, bytes, length) : 0;
    case ZERO_DEVICE:
        memset(bytes, 0, length);
        return (ssize_t)length;
    case RANDOM_DEVICE:
        random_fill(bytes, length);
        return (ssize_t)length;
    case DIRECTORY:
        return -EISDIR;
    default:
        return 0;
    }
}

static ssize_t write_regular(struct open_file *file, const char *bytes, size_t length, uint32_t *place)
{
    if (file->flags & O_APPEND)
        *place = file->node->size;
    if (*place >= INT_MAX)
        return -EFBIG;
    if (length > INT_MAX - *place)
        length = INT_MAX - *place;
    uint32_t count = node_write(file->node, *place, bytes, (uint32_t)length);
    *place += count;
    return count > 0 || length == 0 ? (ssize_t)count : -ENOSPC;
}

static ssize_t write_console(struct open_file *file, const void *bytes, size_t length)
{
    if (file->node->stream == STDIN_FILENO)
        return -EBADF;
    ssize_t count = console_write_some(file->node->stream, bytes, length);
    return count < 0 ? -errno : count;
}

ssize_t file_write(struct open_file *file, const void *bytes, size_t length, uint32_t *place)
{
    if (!may_write(file))
        return -EBADF;
    switch (file->node->kind) {
    case REGULAR:
        return write_regular(file, bytes, length, place);
    case CONSOLE:
        return write_console(file, bytes, length);
    case PIPE:
        return length ? pipe_write(file, bytes, length) : 0;
    default:
        return (ssize_t)(length < INT_MAX ? length : INT_MAX);
    }
}

/* Whether a call goes on that a signal interrupted: runs the handlers, outside of the monitor. */
static bool goes_on(ssize_t code)
{
    if (code != -EINTR)
        return false;
    monitor_leave();
    bool is_restarted = signals_deliver();
    monitor_enter();
    return is_restarted;
}

ssize_t files_read(int descriptor, void *bytes, size_t length)
{
    ssize_t code;
    monitor_enter();
    do {
        struct open_file *file = file_of(descriptor);
        code = file ? file_read(file, bytes, length, &file->place) : -EBADF;
    } while (goes_on(code));
    return files_finish(code);
}

ssize_t files_write(int descriptor, const void *bytes, size_t length)
{
    ssize_t code;
    monitor_enter();
    do {
        struct open_file *file = file_of(descriptor);
        code = file ? file_write(file, bytes, length, &file->place) : -EBADF;
    } while (goes_on(code));
    return files_finish(code);
}

/* Reading and writing elsewhere needs a file that has places. */
static int seekable(struct open_file *file, off_t offset)
{
    if (!file)
        return -EBADF;
    if (file->node->kind == PIPE || file->node->kind == CONSOLE)
        return -ESPIPE;
    return offset < 0 ? -EINVAL : 0;
}

ssize_t pread(int descriptor, void *bytes, size_t length, off_t offset)
{
    monitor_enter();
    struct open_file *file = file_of(descriptor);
    uint32_t place = (uint32_t)offset;
    int code = seekable(file, offset);
    return files_finish(code < 0 ? code : file_read(file, bytes, length, &place));
}

ssize_t pwrite(int descriptor, const void *bytes, size_t length, off_t offset)
{
    monitor_enter();
    struct open_file *file = file_of(descriptor);
    uint32_t place = (uint32_t)offset;
    int code = seekable(file, offset);
    return files_finish(code < 0 ? code : file_write(file, bytes, length, &place));
}

static ssize_t read_parts(struct open_file *file, const struct iovec *parts, int count, uint32_t *place)
{
    ssize_t all = 0;
    for (int i = 0; i < count; i++) {
        ssize_t got = file_read(file, parts[i].iov_base, parts[i].iov_len, place);
        if (got < 0)
            return all ? all : got;
        all += got;
        if ((size_t)got < parts[i].iov_len)
            break;
    }
    return all;
}

ssize_t readv(int descriptor, const struct iovec *parts, int count)
{
    monitor_enter();
    struct open_file *file = file_of(descriptor);
    int code = !file ? -EBADF : count < 0 || count > IOV_MAX ? -EINVAL : 0;
    return files_finish(code < 0 ? code : read_parts(file, parts, count, &file->place));
}

ssize_t preadv(int descriptor, const struct iovec *parts, int count, off_t offset)
{
    monitor_enter();
    struct open_file *file = file_of(descriptor);
    uint32_t place = (uint32_t)offset;
    int code = count < 0 || count > IOV_MAX ? -EINVAL : seekable(file, offset);
    return files_finish(code < 0 ? code : read_parts(file, parts, count, &place));
}

static ssize_t write_parts(struct open_file *file, const struct iovec *parts, int count, uint32_t *place)
{
    ssize_t all = 0;
    for (int i = 0; i < count; i++) {
        ssize_t done = file_write(file, parts[i].iov_base, parts[i].iov_len, place);
        if (done < 0)
            return all ? all : done;
        all += done;
        if ((size_t)done < parts[i].iov_len)
            break;
    }
    return all;
}

ssize_t writev(int descriptor, const struct iovec *parts, int count)
{
    monitor_enter();
    struct open_file *file = file_of(descriptor);
    int code = !file ? -EBADF : count < 0 || count > IOV_MAX ? -EINVAL : 0;
    return files_finish(code < 0 ? code : write_parts(file, parts, count, &file->place));
}

ssize_t pwritev(int descriptor, const struct iovec *parts, int count, off_t offset)
{
    monitor_enter();
    struct open_file *file = file_of(descriptor);
    uint32_t place = (uint32_t)offset;
    int code = count < 0 || count > IOV_MAX ? -EINVAL : seekable(file, offset);
    return files_finish(code < 0 ? code : write_parts(file, parts, count, &place));
}

/* Places. */

static off_t seek_here(struct open_file *file, off_t offset, int whence)
{
    int code = seekable(file, 0);
    if (code < 0)
        return code;
    if (whence != SEEK_SET && whence != SEEK_CUR && whence != SEEK_END)
        return -EINVAL;
    int64_t start = whence == SEEK_SET ? 0 : whence == SEEK_CUR ? file->place : file->node->size;
    if (start + offset < 0)
        return -EINVAL;
    if (start + offset > INT_MAX)
        return -EOVERFLOW;
    file->place = file->node->kind == REGULAR || file->node->kind == DIRECTORY ? (uint32_t)(start + offset) : 0;
    return (off_t)file->place;
}

off_t lseek(int descriptor, off_t offset, int whence)
{
    monitor_enter();
    return files_finish(seek_here(file_of(descriptor), offset, whence));
}

static int truncate_here(struct node *node, off_t size)
{
    if (size < 0 || node->kind != REGULAR)
        return node->kind == DIRECTORY ? -EISDIR : -EINVAL;
    return node_resize(node, (uint32_t)size);
}

int ftruncate(int descriptor, off_t size)
{
    monitor_enter();
    struct open_file *file = file_of(descriptor);
    return files_finish(!file ? -EBADF : !may_write(file) ? -EINVAL : truncate_here(file->node, size));
}

int truncate(const char *path, off_t size)
{
    struct node *node;
    monitor_enter();
    int code = path_node(HERE, path, &node);
    return files_finish(code < 0 ? code : truncate_here(node, size));
}

int posix_fallocate(int descriptor, off_t offset, off_t length)
{
    if (offset < 0 || length <= 0)
        return EINVAL;
    monitor_enter();
    struct open_file *file = file_of(descriptor);
    int code = !file || !may_write(file) ? EBADF : file->node->kind != REGULAR ? ENODEV : 0;
    if (code == 0 && (uint32_t)(offset + length) > file->node->size)
        code = -node_resize(file->node, (uint32_t)(offset + length));
    monitor_leave();
    return code;
}

/* Further descriptors of an open file. */

static int duplicate(int descriptor, int least, bool closes_on_exec)
{
    struct open_file *file = file_of(descriptor);
    if (!file)
        return -EBADF;
    if (least < 0 || least >= DESCRIPTORS)
        return -EINVAL;
    int other = free_descriptor(least);
    if (other >= 0)
        install(other, file, closes_on_exec);
    return other;
}

static int duplicate_to(int descriptor, int other, bool closes_on_exec)
{
    struct open_file *file = file_of(descriptor);
    if (!file || other < 0 || other >= DESCRIPTORS)
        return -EBADF;
    if (other != descriptor)
        install(other, file, closes_on_exec);
    return other;
}

int dup(int descriptor)
{
    monitor_enter();
    return files_finish(duplicate(descriptor, 0, false));
}

int dup2(int descriptor, int other)
{
    output_flush();
    monitor_enter();
    return files_finish(duplicate_to(descriptor, other, false));
}

int dup3(int descriptor, int other, int flags)
{
    output_flush();
    monitor_enter();
    return files_finish(descriptor == other ? -EINVAL : duplicate_to(descriptor, other, flags & O_CLOEXEC));
}

static int control(int descriptor, int command, int value)
{
    const int changeable = O_APPEND | O_NONBLOCK | O_SYNC;
    struct open_file *file = file_of(descriptor);
    if (!file)
        return -EBADF;
    switch (command) {
    case F_DUPFD:
    case F_DUPFD_CLOEXEC:
        return duplicate(descriptor, value, command == F_DUPFD_CLOEXEC);
    case F_GETFD:
        return table[descriptor].closes_on_exec ? FD_CLOEXEC : 0;
    case F_SETFD:
        table[descriptor].closes_on_exec = value & FD_CLOEXEC;
        return 0;
    case F_GETFL:
        return file->flags;
    case F_SETFL:
        file->flags = (file->flags & ~changeable) | (value & changeable);
        return 0;
    default:
        return -EINVAL;
    }
}

/* One process has no one to lock a file against. */
static int lock_record(struct open_file *file, int command, struct flock *record)
{
    if (!file)
        return -EBADF;
    if (command == F_GETLK)
        record->l_type = F_UNLCK;
    return 0;
}

int fcntl(int descriptor, int command, ...)
{
    va_list arguments;
    va_start(arguments, command);
    void *value = va_arg(arguments, void *);
    va_end(arguments);
    monitor_enter();
    if (command == F_GETLK || command == F_SETLK || command == F_SETLKW)
        return files_finish(lock_record(file_of(descriptor), command, value));
    return files_finish(control(descriptor, command, (int)(intptr_t)value));
}

static int check(int descriptor)
{
    monitor_enter();
    return files_finish(file_of(descriptor) ? 0 : -EBADF);
}

int flock(int descriptor, int operation)
{
    (void)operation;
    return check(descriptor);
}

int lockf(int descriptor, int command, off_t length)
{
    (void)command;
    (void)length;
    return check(descriptor);
}

int fsync(int descriptor)
{
    return check(descriptor);
}

int fdatasync(int descriptor)
{
    return check(descriptor);
}

void sync(void)
{
}

int posix_fadvise(int descriptor, off_t offset, off_t length, int advice)
{
    (void)offset;
    (void)length;
    (void)advice;
    monitor_enter();
    int code = file_of(descriptor) ? 0 : EBADF;
    monitor_leave();
    return code;
}

int getdtablesize(void)
{
    return DESCRIPTORS;
}
