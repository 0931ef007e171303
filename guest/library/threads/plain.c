/* Threads of dthreads.h, which the library doesn't manage. */
#include <sys/single_threaded.h>
#include "monitor.h"

void dthreads_plain_entry(void);

struct plain {
    void (*entry)(void *);
    void *argument;
    char *block;
};

/* Threads that create others at once must not lose each other's count. A program without pthread.h may hold the mutex itself. */
static void count_others(uint32_t change)
{
    hint_enter();
    bool is_taken = !alone() && dthreads_lock(MONITOR_MUTEX) == DTHREADS_DONE;
    __libc_single_threaded = 0;
    monitor.others += change;
    if (is_taken)
        dthreads_unlock(MONITOR_MUTEX);
    hint_leave();
}

uint32_t dthreads_create(void (*entry)(void *), void *argument, void *stack_top, uint32_t *number)
{
    struct plain *plain = (struct plain *)((uintptr_t)stack_top & ~(uintptr_t)15) - 1;
    char *block = block_below((char *)plain);
    dthreads_hint_fresh(block, (uint32_t)((char *)(plain + 1) - block));
    tls_fill(block);
    *plain = (struct plain){entry, argument, block};
    count_others(1);
    uint32_t code = dthreads_call(DTHREADS_CREATE, (uint32_t)(uintptr_t)dthreads_plain_entry, (uint32_t)(uintptr_t)plain,
                                  (uint32_t)(uintptr_t)block & ~UINT32_C(15), number);
    if (code != DTHREADS_DONE)
        count_others(-UINT32_C(1));
    return code;
}

void dthreads_plain_run(struct plain *plain)
{
    plain->entry(plain->argument);
    dthreads_thread_exit(0);
}
