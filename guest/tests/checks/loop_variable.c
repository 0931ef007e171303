/* Race: each thread gets the address of the loop's variable. Right: its value. */
#include "checks.h"

static void *show(void *argument)
{
    IF_RIGHT(return argument);
    IF_WRONG(return (void *)(size_t)*(volatile int *)argument);
}

int main(void)
{
    pthread_t threads[2];
    for (volatile int i = 0; i < 2; i++)
        threads[i] = begun(show, IF_RIGHT((void *)(size_t)i) IF_WRONG((void *)&i));
    ended(threads[0]);
    ended(threads[1]);
}
