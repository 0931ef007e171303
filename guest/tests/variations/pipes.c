/* 1: a read of a pipe takes a part of what is there. 2: the bytes of another thread come between those of a long write. Short writes and
 * reads stay in one piece. */
#include <limits.h>
#include <stdlib.h>
#include <string.h>
#include <unistd.h>
#include "yield.h"

enum { LONG = 20000, SHORT = PIPE_BUF };

static int ends[2];

static void *write_long(void *letter)
{
    static char texts[2][LONG];
    char *text = texts[*(char *)letter - 'a'];
    memset(text, *(char *)letter, LONG);
    if (write(ends[1], text, LONG) != LONG)
        abort();
    return NULL;
}

/* How often the letter changes in what both threads wrote. */
static int changes(void)
{
    static char text[2 * LONG];
    int count = 0, place = 0;
    while (place < 2 * LONG)
        place += (int)read(ends[0], text + place, (size_t)(2 * LONG - place));
    for (int i = 1; i < 2 * LONG; i++)
        count += text[i] != text[i - 1];
    return count;
}

static int try_read(void)
{
    static char text[LONG];
    write_long("a");
    int place = (int)read(ends[0], text, LONG), status = place < LONG;
    while (place < LONG)
        place += (int)read(ends[0], text, (size_t)(LONG - place));
    if (write(ends[1], text, SHORT) != SHORT || read(ends[0], text, SHORT) != SHORT)
        abort();
    return status;
}

int main(void)
{
    pthread_t one, other;
    pipe(ends);
    int status = try_read();
    pthread_create(&one, NULL, write_long, "a");
    pthread_create(&other, NULL, write_long, "b");
    pthread_join(one, NULL);
    pthread_join(other, NULL);
    return status | (changes() > 1) << 1;
}
