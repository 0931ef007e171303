/* Race: the main thread reads a result and waits for nothing that orders it. Right: it joins the thread. */
#include "checks.h"

volatile int result;

static void *work(void *argument)
{
    result = 1;
    return argument;
}

int main(void)
{
    pthread_t thread = begun(work, NULL);
    IF_RIGHT(ended(thread));
    let_pass();
    (void)result;
    IF_WRONG(pthread_detach(thread));
}
