/* Race: a thread takes a mutex while another one makes it. Right: it is made before the thread begins. */
#include "checks.h"

static pthread_mutex_t mutex;

static void *take(void *argument)
{
    let_pass();
    LOCK(mutex);
    UNLOCK(mutex);
    return argument;
}

int main(void)
{
    IF_RIGHT(pthread_mutex_init(&mutex, NULL));
    pthread_t thread = begun(take, NULL);
    IF_WRONG(pthread_mutex_init(&mutex, NULL));
    ended(thread);
}
