/* Freed: a thread reads a block that another one has freed before. Right: it reads it before. */
#include "checks.h"

static sem_t turn;
static volatile int *block;

static void *give_back(void *argument)
{
    sem_wait(&turn);
    free((void *)block);
    sem_post(&turn);
    return argument;
}

int main(void)
{
    sem_init(&turn, 0, 0);
    block = malloc(40);
    block[4] = 5;
    pthread_t thread = begun(give_back, NULL);
    IF_RIGHT((void)block[4]);
    sem_post(&turn);
    ended(thread);
    IF_WRONG((void)block[4]);
}
