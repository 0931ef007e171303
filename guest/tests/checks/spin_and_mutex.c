/* Order: a spin lock and a mutex in both orders. Right: in one. */
#include "checks.h"

static pthread_spinlock_t spin;
MUTEX(mutex);

static void *one(void *argument)
{
    pthread_spin_lock(&spin);
    LOCK(mutex);
    UNLOCK(mutex);
    pthread_spin_unlock(&spin);
    return argument;
}

static void *two(void *argument)
{
    let_pass();
    IF_WRONG(LOCK(mutex));
    pthread_spin_lock(&spin);
    IF_RIGHT(LOCK(mutex));
    UNLOCK(mutex);
    pthread_spin_unlock(&spin);
    return argument;
}

int main(void)
{
    pthread_spin_init(&spin, PTHREAD_PROCESS_PRIVATE);
    both(one, two);
}
