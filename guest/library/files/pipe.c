/* Pipes, and which events hold for an open file. For hints, who reads goes on after those who wrote or closed, though POSIX promises it
 * of no pipe: the bytes tell of what was done before. */
#include <poll.h>
#include <stdlib.h>
#include <unistd.h>
#include "files.h"

enum {
    ROOM = 65536
};

struct pipe {
    uint32_t readers, writers;
    /* The first byte that is there, and how many are. */
    uint32_t first, length;
    struct dthreads_queue reading, writing;
    char bytes[ROOM];
};

struct dthreads_queue pollers;

static void tell(struct dthreads_queue *queue)
{
    monitor_wake_all(queue);
    monitor_wake_all(&pollers);
}

void pipe_attach(struct open_file *file)
{
    struct pipe *pipe = file->node->pipe;
    pipe->readers += may_read(file);
    pipe->writers += may_write(file);
}

void pipe_detach(struct open_file *file)
{
    struct pipe *pipe = file->node->pipe;
    dthreads_hint_release(pipe);
    pipe->readers -= may_read(file);
    pipe->writers -= may_write(file);
    tell(may_read(file) ? &pipe->writing : &pipe->reading);
}

void pipe_free(struct pipe *pipe)
{
    free(pipe);
}

static uint32_t part_from(uint32_t place, uint32_t length)
{
    return length < ROOM - place ? length : ROOM - place;
}

/* How many of so many bytes a call moves at once: by choice a part, if they need not stay in one piece. */
static size_t piece_of(size_t length)
{
    return length > PIPE_BUF && vary_one_in(2) ? PIPE_BUF + vary_below((uint32_t)(length - PIPE_BUF)) : length;
}

static uint32_t take(struct pipe *pipe, char *bytes, size_t length)
{
    uint32_t count = length < pipe->length ? (uint32_t)length : pipe->length;
    uint32_t part = part_from(pipe->first, count);
    hint_copy(bytes, pipe->bytes + pipe->first, part);
    hint_copy(bytes + part, pipe->bytes, count - part);
    pipe->first = (pipe->first + count) % ROOM;
    pipe->length -= count;
    return count;
}

static uint32_t put(struct pipe *pipe, const char *bytes, size_t length)
{
    uint32_t count = length < ROOM - pipe->length ? (uint32_t)length : ROOM - pipe->length;
    uint32_t place = (pipe->first + pipe->length) % ROOM, part = part_from(place, count);
    memcpy(pipe->bytes + place, bytes, part);
    memcpy(pipe->bytes, bytes + part, count - part);
    pipe->length += count;
    return count;
}

ssize_t pipe_read(struct open_file *file, char *bytes, size_t length)
{
    struct pipe *pipe = file->node->pipe;
    while (pipe->length == 0) {
        if (pipe->writers == 0) {
            dthreads_hint_acquire(pipe);
            return 0;
        }
        if (file->flags & O_NONBLOCK)
            return -EAGAIN;
        enum wake wake = monitor_sleep_lightly(&pipe->reading, NEVER, true);
        if (wake != WOKEN)
            return wake == CANCELLED ? -ECANCELED : -EINTR;
    }
    dthreads_hint_acquire(pipe);
    uint32_t count = take(pipe, bytes, piece_of(length));
    tell(&pipe->writing);
    return (ssize_t)count;
}

/* Waits for room: for all of a short write, which stays in one piece, else for any. */
static int wait_for_room(struct open_file *file, size_t length)
{
    struct pipe *pipe = file->node->pipe;
    uint32_t wanted = length <= PIPE_BUF ? (uint32_t)length : 1;
    while (pipe->readers > 0 && ROOM - pipe->length < wanted) {
        if (file->flags & O_NONBLOCK)
            return -EAGAIN;
        enum wake wake = monitor_sleep_lightly(&pipe->writing, NEVER, true);
        if (wake != WOKEN)
            return wake == CANCELLED ? -ECANCELED : -EINTR;
    }
    return pipe->readers > 0 ? 0 : -EPIPE;
}

ssize_t pipe_write(struct open_file *file, const char *bytes, size_t length)
{
    size_t done = 0;
    while (done < length) {
        int code = wait_for_room(file, done ? 1 : length);
        if (code < 0)
            return done && (code == -EAGAIN || code == -EINTR) ? (ssize_t)done : code;
        dthreads_hint_release(file->node->pipe);
        size_t left = length - done, piece = piece_of(left);
        done += put(file->node->pipe, bytes + done, piece);
        tell(&file->node->pipe->reading);
        if (piece < left)
            monitor_breathe();
    }
    return (ssize_t)done;
}

int file_events(struct open_file *file)
{
    struct pipe *pipe = file->node->pipe;
    int events = 0;
    if (!pipe)
        return (may_read(file) ? POLLIN | POLLRDNORM : 0) | (may_write(file) ? POLLOUT | POLLWRNORM : 0);
    if (may_read(file))
        events |= (pipe->length > 0 ? POLLIN | POLLRDNORM : 0) | (pipe->writers == 0 ? POLLHUP : 0);
    if (may_write(file))
        events |= pipe->readers == 0 ? POLLERR | POLLOUT : ROOM - pipe->length >= PIPE_BUF ? POLLOUT | POLLWRNORM : 0;
    return events;
}

static int make(int descriptors[2], int flags)
{
    struct node *node = node_make(PIPE, 0600);
    if (!node)
        return -ENOMEM;
    node->pipe = calloc(1, sizeof *node->pipe);
    if (!node->pipe) {
        node_release(node);
        return -ENOMEM;
    }
    int reading = node_open(node, flags | O_RDONLY);
    if (reading < 0) {
        node_release(node);
        return reading;
    }
    int writing = node_open(node, flags | O_WRONLY);
    if (writing < 0) {
        close(reading);
        return writing;
    }
    descriptors[0] = reading;
    descriptors[1] = writing;
    return 0;
}

int pipe2(int descriptors[2], int flags)
{
    if (flags & ~(O_CLOEXEC | O_NONBLOCK)) {
        errno = EINVAL;
        return -1;
    }
    monitor_enter();
    return files_finish(make(descriptors, flags));
}

int pipe(int descriptors[2])
{
    return pipe2(descriptors, 0);
}
