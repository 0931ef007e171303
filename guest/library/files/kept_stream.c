/* Who is in a stream, and who keeps one between calls.
 *
 * A thread that used a stream keeps it: as long as bytes are in the buffer, or room for some, getc and putc then need no turn. Each
 * thread keeps one stream that it reads and one that it writes. What it did with them is seen by others at its next turn alone, so a
 * thread that wants a kept stream takes it from a thread that sleeps, and else asks for it and waits until that thread is in the
 * monitor. A stream that was asked for is kept again after more calls of one thread than before, unless its keeper had gone through some
 * buffers of it. */
#include "stream.h"

enum {
    /* How many calls of one thread come before it keeps a stream that had to be asked for, at first and at most. */
    FIRST_PATIENCE = 16,
    GREATEST_PATIENCE = 1 << 20,
    /* Buffers that its user went through, after which the wait for a stream is worth it. */
    MANY_BUFFERS = 4
};

__thread struct stream *kept_reading;
__thread struct stream *kept_writing;
__thread uint32_t kept_calls;

/* Threads that asked for a kept stream. */
static struct dthreads_queue askers;

/* A variable of another thread that each has: they lie alike in all threads. */
static struct stream **of_thread(const struct dthreads_thread *thread, struct stream **mine)
{
    return thread == self() ? mine : (struct stream **)((char *)mine - (char *)&own + (char *)thread->own);
}

/* The stream is nobody's, and what was done with it is in its place. */
static void let_go(struct stream *stream)
{
    struct dthreads_thread *keeper = stream->keeper;
    struct stream **reading = of_thread(keeper, &kept_reading), **writing = of_thread(keeper, &kept_writing);
    stream->place = (uint32_t)(stream->next - stream->buffer);
    if (*reading == stream)
        *reading = NULL;
    else
        *writing = NULL;
    stream->keeper = NULL;
}

void stream_settle_place(struct stream *stream)
{
    if (stream->keeper)
        let_go(stream);
}

/* One that was asked for soon needs more patience. */
static void give(struct stream *stream)
{
    if (!stream)
        return;
    let_go(stream);
    stream->uses = 0;
    if (askers.first && stream->buffers < MANY_BUFFERS && stream->patience < GREATEST_PATIENCE)
        stream->patience = stream->patience < FIRST_PATIENCE ? FIRST_PATIENCE : stream->patience * 2;
}

void streams_give(void)
{
    self()->asked = false;
    give(kept_reading);
    give(kept_writing);
    monitor_wake_all(&askers);
}

bool stream_ask(struct stream *stream)
{
    struct dthreads_thread *keeper = stream->keeper;
    if (!keeper || keeper == self() || keeper->asleep || keeper->life != LIVING)
        return false;
    keeper->asked = true;
    monitor_sleep(&askers, NEVER, false);
    return true;
}

__attribute__((noinline)) void stream_enter(struct stream *stream)
{
    monitor_enter();
    if (kept_calls > 0) {
        monitor.clock += (uint64_t)kept_calls * DTHREADS_OPERATION_TIME;
        kept_calls = 0;
    }
    while (stream_ask(stream) || (stream->owner && stream->owner != self()))
        if (stream->owner && stream->owner != self())
            monitor_sleep(&stream->waiters, NEVER, false);
    stream_settle_place(stream);
    stream->owner = self();
    stream->count++;
}

/* The stream's place in the thread that keeps it, if its next bytes are in the buffer, or have room there. */
static struct stream **kept_place(struct stream *stream)
{
    uint8_t flags = stream->file.flags;
    if (stream->is_writing)
        return flags & __SWR && stream->mode == _IOFBF && stream->place < stream->room ? &kept_writing : NULL;
    return flags & __SRD && stream->place < stream->length && !stream->file.unget ? &kept_reading : NULL;
}

static void keep(struct stream *stream)
{
    struct stream **kept = kept_place(stream);
    if (!kept)
        return;
    if (*kept)
        let_go(*kept);
    *kept = stream;
    stream->next = stream->buffer + stream->place;
    stream->end = stream->buffer + (stream->is_writing ? stream->room : stream->length);
    stream->keeper = self();
}

/* Whether the thread has used the stream often enough to keep it. */
static bool may_keep(struct stream *stream)
{
    if (!self() || stream->waiters.first)
        return false;
    if (stream->user != self()) {
        stream->user = self();
        stream->uses = stream->buffers = 0;
    }
    return stream->uses++ >= stream->patience;
}

__attribute__((noinline)) void stream_leave(struct stream *stream)
{
    if (--stream->count == 0) {
        stream->owner = NULL;
        monitor_wake_next(&stream->waiters);
    }
    if (own.depth == 1 && may_keep(stream))
        keep(stream);
    monitor_leave();
}
