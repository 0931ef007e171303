/* Whether the program has one thread, as sys/single_threaded.h has it: until another one is created, by pthread.h or, without an argument, by
 * dthreads.h. */
#include <dthreads.h>
#include <pthread.h>
#include <stdio.h>
#include <sys/single_threaded.h>

enum { UNSEEN = 2 };

static _Alignas(16) char stack[4096];
static _Atomic char seen = UNSEEN;

static void see(void *argument)
{
    (void)argument;
    seen = __libc_single_threaded;
}

static void *sees(void *argument)
{
    see(argument);
    return NULL;
}

static void create_by_posix(void)
{
    pthread_t thread;
    pthread_create(&thread, NULL, sees, NULL);
    pthread_join(thread, NULL);
}

static void create_by_call(void)
{
    uint32_t number;
    dthreads_create(see, NULL, stack + sizeof stack, &number);
    while (seen == UNSEEN)
        dthreads_sync();
}

int main(int count, char **words)
{
    (void)words;
    printf("at first %d\n", __libc_single_threaded);
    (count > 1 ? create_by_posix : create_by_call)();
    printf("in the other %d, afterwards %d\n", seen, __libc_single_threaded);
    return 0;
}
