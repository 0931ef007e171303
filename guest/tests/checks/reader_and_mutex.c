/* Order: a read-write lock and a mutex in both orders. Right: in one. */
#include "checks.h"

static pthread_rwlock_t table = PTHREAD_RWLOCK_INITIALIZER;
MUTEX(row);

static void *look(void *argument)
{
    pthread_rwlock_rdlock(&table);
    LOCK(row);
    UNLOCK(row);
    pthread_rwlock_unlock(&table);
    return argument;
}

static void *change(void *argument)
{
    let_pass();
    IF_WRONG(LOCK(row));
    pthread_rwlock_wrlock(&table);
    IF_RIGHT(LOCK(row));
    UNLOCK(row);
    pthread_rwlock_unlock(&table);
    return argument;
}

int main(void)
{
    both(look, change);
}
