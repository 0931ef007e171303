/* An end without the functions of atexit. */
#include <stdlib.h>
#include "../threads/monitor.h"

enum {
    MOST = 32
};

static void (*functions[MOST])(void);
static uint32_t count;

int at_quick_exit(void (*function)(void))
{
    monitor_enter();
    bool has_room = count < MOST;
    if (has_room)
        functions[count++] = function;
    monitor_leave();
    return has_room ? 0 : -1;
}

void quick_exit(int status)
{
    while (count > 0)
        functions[--count]();
    output_flush();
    _Exit(status);
}
