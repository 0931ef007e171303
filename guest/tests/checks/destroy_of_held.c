/* Misuse: a mutex is destroyed while a thread has it. Right: afterwards. */
#include "checks.h"

static pthread_mutex_t mutex;

int main(void)
{
    pthread_mutex_init(&mutex, NULL);
    LOCK(mutex);
    IF_WRONG(pthread_mutex_destroy(&mutex));
    UNLOCK(mutex);
    IF_RIGHT(pthread_mutex_destroy(&mutex));
}
