/* Misuse: a thread returns with its mutex. Right: it frees it. */
#include "checks.h"

MUTEX(mutex);

static void *work(void *argument)
{
    LOCK(mutex);
    if (!argument) {
        IF_RIGHT(UNLOCK(mutex));
        return argument;
    }
    UNLOCK(mutex);
    return NULL;
}

int main(void)
{
    done(work, NULL);
}
