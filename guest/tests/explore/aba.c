/* A stack without locks: between the load of the first node's next one and the exchange the node may go and come back. */
#include "explore.h"

enum { NODES = 3, NONE = 0 };

/* The node on top, and how often it changed if RIGHT. */
static _Atomic unsigned top;
static atomic_uint next[NODES + 1];
static atomic_int owners[NODES + 1];

static unsigned fresh(unsigned old, unsigned node)
{
#ifdef RIGHT
    return (old & ~0xFFU) + 0x100 + node;
#else
    (void)old;
    return node;
#endif
}

static unsigned pop(bool dawdles)
{
    unsigned old = atomic_load(&top), after;
    do {
        if ((old & 0xFF) == NONE)
            return NONE;
        after = atomic_load(&next[old & 0xFF]);
        for (int i = 0; dawdles && i < 12; i++)
            sched_yield();
    } while (!atomic_compare_exchange_strong(&top, &old, fresh(old, after)));
    must(atomic_fetch_add(&owners[old & 0xFF], 1) == 0, "one node has two owners");
    return old & 0xFF;
}

static void push(unsigned node)
{
    unsigned old = atomic_load(&top);
    atomic_fetch_sub(&owners[node], 1);
    do
        atomic_store(&next[node], old & 0xFF);
    while (!atomic_compare_exchange_strong(&top, &old, fresh(old, node)));
}

static void *pop_slowly(void *argument)
{
    pop(true);
    pop(false);
    return argument;
}

static void *pop_and_push(void *argument)
{
    for (int i = 0; i < 14; i++)
        sched_yield();
    unsigned node = pop(false);
    pop(false);
    if (node != NONE)
        push(node);
    return argument;
}

int main(void)
{
    for (unsigned i = 1; i <= NODES; i++) {
        next[i] = i - 1;
        top = i;
    }
    begin(pop_slowly, 0);
    begin(pop_and_push, 0);
    join();
}
