/* Order: two philosophers take their left fork first. Right: the lower one first. */
#include "checks.h"

static pthread_mutex_t forks[2] = {PTHREAD_MUTEX_INITIALIZER, PTHREAD_MUTEX_INITIALIZER};

static void *dine(void *argument)
{
    size_t seat = (size_t)argument, first = IF_RIGHT(0) IF_WRONG(seat), second = 1 - first;
    for (size_t i = 0; i < seat; i++)
        let_pass();
    LOCK(forks[first]);
    LOCK(forks[second]);
    UNLOCK(forks[second]);
    UNLOCK(forks[first]);
    return argument;
}

int main(void)
{
    pthread_t first = begun(dine, NULL), second = begun(dine, (void *)1);
    ended(first);
    ended(second);
}
