/* tgammal of the C library computes in variables that all threads share, so one thread at a time is in it. The linker calls this in its
 * place. */
#include "../threads/monitor.h"

long double __real_tgammal(long double number);
long double __wrap_tgammal(long double number);

long double __wrap_tgammal(long double number)
{
    monitor_enter();
    long double value = __real_tgammal(number);
    monitor_leave();
    return value;
}
