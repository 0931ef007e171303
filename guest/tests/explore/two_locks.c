/* Two threads take two mutexes in opposite orders. */
#include "explore.h"

static pthread_mutex_t one = PTHREAD_MUTEX_INITIALIZER, other = PTHREAD_MUTEX_INITIALIZER;

static void *use(void *number)
{
#ifdef RIGHT
    bool is_first = true;
#else
    bool is_first = (long)number == 0;
#endif
    lock(is_first ? &one : &other);
    lock(is_first ? &other : &one);
    unlock(&one);
    unlock(&other);
    return NULL;
}

int main(void)
{
    begin(use, 0);
    begin(use, 1);
    join();
}
