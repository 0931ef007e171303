/* The flag that says that a table is filled is set before the table is. */
#include "explore.h"

static pthread_mutex_t mutex = PTHREAD_MUTEX_INITIALIZER;
static atomic_bool is_filled;
static atomic_int table[3];

static void fill(void)
{
    lock(&mutex);
    if (!is_filled) {
#ifndef RIGHT
        is_filled = true;
#endif
        for (int i = 0; i < 3; i++)
            table[i] = i + 1;
#ifdef RIGHT
        is_filled = true;
#endif
    }
    unlock(&mutex);
}

static void *use(void *argument)
{
    if (!is_filled)
        fill();
    must(table[2] == 3, "half a table");
    return argument;
}

int main(void)
{
    begin(use, 0);
    begin(use, 1);
    join();
}
