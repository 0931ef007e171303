/* Streams that a thread keeps over several calls. Those of sprintf and its kin are a thread's own and need no lock. */
#include "stream.h"

void flockfile(FILE *file)
{
    struct stream *stream = stream_of(file);
    if (stream) {
        stream_enter(stream);
        dthreads_hint_acquire(stream);
        monitor_leave();
    }
}

int ftrylockfile(FILE *file)
{
    struct stream *stream = stream_of(file);
    bool is_free = true;
    if (!stream)
        return 0;
    monitor_enter();
    while (stream_ask(stream))
        ;
    is_free = !stream->owner || stream->owner == self();
    if (is_free) {
        stream_settle_place(stream);
        stream->owner = self();
        stream->count++;
        dthreads_hint_acquire(stream);
    }
    monitor_leave();
    return is_free ? 0 : -1;
}

void funlockfile(FILE *file)
{
    struct stream *stream = stream_of(file);
    if (!stream)
        return;
    monitor_enter();
    if (stream->owner == self()) {
        dthreads_hint_release(stream);
        stream_leave(stream);
    } else {
        monitor_leave();
    }
}
