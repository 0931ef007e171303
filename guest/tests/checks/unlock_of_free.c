/* Misuse: a mutex is unlocked twice. Right: once. */
#include "checks.h"

MUTEX(mutex);

int main(void)
{
    LOCK(mutex);
    UNLOCK(mutex);
    IF_WRONG(UNLOCK(mutex));
}
