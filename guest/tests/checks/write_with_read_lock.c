/* Race: two threads store with the read lock. Right: with the write lock. */
#include "checks.h"

static pthread_rwlock_t lock = PTHREAD_RWLOCK_INITIALIZER;
volatile int total;

static void *change(void *argument)
{
    IF_RIGHT(pthread_rwlock_wrlock(&lock));
    IF_WRONG(pthread_rwlock_rdlock(&lock));
    total += 3;
    pthread_rwlock_unlock(&lock);
    return argument;
}

int main(void)
{
    both(change, change);
}
