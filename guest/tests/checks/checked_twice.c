/* Race: the first look at what is made once is plain. Right: it is an atomic one. */
#include "checks.h"

MUTEX(mutex);
static int value;
int *made;

static int *get(void)
{
    IF_RIGHT(int *found = __atomic_load_n(&made, __ATOMIC_ACQUIRE));
    IF_WRONG(int *found = *(int *volatile *)&made);
    if (!found) {
        LOCK(mutex);
        if (!__atomic_load_n(&made, __ATOMIC_RELAXED)) {
            value = 5;
            __atomic_store_n(&made, &value, __ATOMIC_RELEASE);
        }
        UNLOCK(mutex);
    }
    return found;
}

static void *use(void *argument)
{
    get();
    let_pass();
    get();
    return argument;
}

int main(void)
{
    both(use, use);
}
