/* What was read under a read lock is acted upon under the write lock, between which the lock was free. */
#include "explore.h"

static pthread_rwlock_t guard = PTHREAD_RWLOCK_INITIALIZER;
static int made;

static void *use(void *number)
{
    for (long i = 0; i < (long)number; i++)
        sched_yield();
    pthread_rwlock_rdlock(&guard);
    bool is_made = made > 0;
    pthread_rwlock_unlock(&guard);
    if (!is_made) {
        pthread_rwlock_wrlock(&guard);
#ifdef RIGHT
        if (made == 0)
#endif
            made++;
        pthread_rwlock_unlock(&guard);
    }
    return NULL;
}

int main(void)
{
    begin(use, 0);
    begin(use, 6);
    join();
    must(made == 1, "made twice");
}
