/* Race: the semaphore is posted before the data is stored. Right: after it. */
#include "checks.h"

static sem_t filled;
volatile int data;

static void *fill(void *argument)
{
    IF_WRONG(sem_post(&filled));
    data = 1;
    IF_RIGHT(sem_post(&filled));
    return argument;
}

static void *empty(void *argument)
{
    sem_wait(&filled);
    (void)data;
    return argument;
}

int main(void)
{
    sem_init(&filled, 0, 0);
    both(fill, empty);
}
