/* Misuse: a read-write lock is freed by a thread that doesn't read. Right: by the reader. */
#include "checks.h"

static pthread_rwlock_t lock = PTHREAD_RWLOCK_INITIALIZER;

static void *let_go(void *argument)
{
    IF_WRONG(pthread_rwlock_unlock(&lock));
    return argument;
}

int main(void)
{
    pthread_rwlock_rdlock(&lock);
    done(let_go, NULL);
    pthread_rwlock_unlock(&lock);
}
