/* Freed: the thread-local variable of an ended thread. Right: the thread's end comes after. */
#include "checks.h"

static __thread volatile int own_number;
static sem_t turn;

static void *show(void *place)
{
    own_number = 3;
    *(volatile int **)place = &own_number;
    sem_post(&turn);
    IF_RIGHT(sem_wait(&turn), let_pass());
    return NULL;
}

int main(void)
{
    volatile int *shown;
    sem_init(&turn, 0, 0);
    pthread_t thread = begun(show, &shown);
    sem_wait(&turn);
    IF_RIGHT((void)*shown, sem_post(&turn));
    ended(thread);
    IF_WRONG((void)*shown);
}
