/* Misuse: a thread waits for a condition without the mutex. Right: with it. */
#include "checks.h"

MUTEX(mutex);
static pthread_cond_t changed = PTHREAD_COND_INITIALIZER;

int main(void)
{
    struct timespec soon = {.tv_sec = 946684801};
    IF_RIGHT(LOCK(mutex));
    pthread_cond_timedwait(&changed, &mutex, &soon);
    IF_RIGHT(UNLOCK(mutex));
}
