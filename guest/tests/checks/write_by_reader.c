/* Misuse: a reader takes the write lock of the same lock, and waits for ever. Right: it frees the read lock before. */
#include "checks.h"

static pthread_rwlock_t lock = PTHREAD_RWLOCK_INITIALIZER;

int main(void)
{
    pthread_rwlock_rdlock(&lock);
    IF_RIGHT(pthread_rwlock_unlock(&lock));
    pthread_rwlock_wrlock(&lock);
    pthread_rwlock_unlock(&lock);
}
