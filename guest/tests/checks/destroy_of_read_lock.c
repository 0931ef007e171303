/* Misuse: a read-write lock is destroyed by its reader. Right: afterwards. */
#include "checks.h"

static pthread_rwlock_t lock;

int main(void)
{
    pthread_rwlock_init(&lock, NULL);
    pthread_rwlock_rdlock(&lock);
    IF_RIGHT(pthread_rwlock_unlock(&lock));
    pthread_rwlock_destroy(&lock);
}
