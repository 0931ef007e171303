/* A long message comes from a pipe in one read. */
#include "explore.h"

enum { LENGTH = 9000 };

static int ends[2];

static void *send(void *argument)
{
    static char message[LENGTH];
    memset(message, 'x', LENGTH);
    must(write(ends[1], message, LENGTH) == LENGTH, "not written");
    return argument;
}

static size_t receive(char *message)
{
    size_t length = 0;
    ssize_t count;
    do {
        count = read(ends[0], message + length, LENGTH - length);
        length += count > 0 ? (size_t)count : 0;
    }
#ifdef RIGHT
    while (count > 0 && length < LENGTH);
#else
    while (false);
#endif
    return length;
}

int main(void)
{
    static char message[LENGTH];
    pipe(ends);
    begin(send, 0);
    must(receive(message) == LENGTH, "a part of the message");
    join();
}
