/* Misuse: a thread ends with a read lock. Right: it frees it. */
#include "checks.h"

static pthread_rwlock_t lock = PTHREAD_RWLOCK_INITIALIZER;

static void *look(void *argument)
{
    pthread_rwlock_rdlock(&lock);
    IF_RIGHT(pthread_rwlock_unlock(&lock));
    return argument;
}

int main(void)
{
    done(look, NULL);
}
