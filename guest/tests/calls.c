/* The calls of the machine themselves. */
#include <dthreads.h>
#include <stdint.h>
#include <string.h>

static char stacks[2][16384] __attribute__((aligned(16)));
static int counter;
static __thread int mine = 3;
static int seen[2];

static void run(void *argument)
{
    uint32_t last;
    for (int i = 0; i < 10; i++) {
        dthreads_lock(0);
        counter++;
        dthreads_unlock(0);
    }
    mine += (int)(intptr_t)argument;
    seen[(int)(intptr_t)argument] = mine;
    dthreads_barrier(5, 3, &last);
}

int main(void)
{
    uint32_t numbers[2], value, code, address;
    char text[16];
    for (int i = 0; i < 2; i++)
        dthreads_create(run, (void *)(intptr_t)i, stacks[i] + sizeof stacks[i], &numbers[i]);
    dthreads_barrier(5, 3, &value);
    for (int i = 0; i < 2; i++)
        if (dthreads_join(numbers[i], &value) != DTHREADS_DONE || value != 0)
            return 1;
    if (counter != 20 || seen[0] != 3 || seen[1] != 4 || mine != 3)
        return 2;
    if (dthreads_lock(64) != DTHREADS_BAD_ARGUMENT || dthreads_unlock(3) != DTHREADS_NOT_HOLDER)
        return 3;
    if (dthreads_memory(2, &address) != DTHREADS_DONE || address < 0x20000000)
        return 4;
    if (dthreads_release((void *)(uintptr_t)address, 2) != DTHREADS_DONE)
        return 5;
    code = dthreads_read(text, sizeof text, &value);
    if (code != DTHREADS_DONE || value != 0 || dthreads_sync() != DTHREADS_DONE)
        return 6;
    if (dthreads_signal(1, &value) != DTHREADS_DONE || value != 0 || dthreads_call(99, 0, 0, 0, &value) != DTHREADS_NO_SUCH_CALL)
        return 7;
    dthreads_write("done\n", 5);
    return 0;
}
