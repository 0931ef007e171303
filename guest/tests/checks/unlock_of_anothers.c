/* Misuse: a thread unlocks the mutex of another. Right: its own. */
#include "checks.h"

MUTEX(mutex);
static sem_t turn, back;

static void *let_go(void *argument)
{
    sem_wait(&turn);
    IF_WRONG(UNLOCK(mutex));
    sem_post(&back);
    return argument;
}

int main(void)
{
    sem_init(&turn, 0, 0);
    sem_init(&back, 0, 0);
    pthread_t thread = begun(let_go, NULL);
    LOCK(mutex);
    sem_post(&turn);
    sem_wait(&back);
    IF_RIGHT(UNLOCK(mutex));
    ended(thread);
}
