/* Stacks, with the thread-local storage at their upper end. They are used again and never given back.
 *
 * The machine gives each page of a stack when it is made, so many large stacks exceed the heap where a host gives pages by need. So a stack
 * of up to 8 MiB that would leave less than half of the heap gets a part of what is left, but no less than an ordinary stack. */
#include <string.h>
#include "monitor.h"

struct stack {
    struct stack *next;
    uint32_t pages;
};

enum {
    /* Threads that live at a time with an ample stack, and its bytes: 16 MiB of the heap at most. */
    AMPLE_STACKS = 32,
    AMPLE_STACK = 524288,
    /* Of what is left of the heap, a large stack gets one part of so many; one of more bytes than the second gets all or nothing. */
    PARTS = 64,
    LARGEST_SHRUNK = 8 << 20
};

extern char __tls_template[];
extern char __tls_data_size[], __tls_size[], __tls_align[];

void tls_fill(char *block)
{
    size_t data = (size_t)__tls_data_size;
    memcpy(block, __tls_template, data);
    memset(block + data, 0, (size_t)__tls_size - data);
}

/* The place of a thread-local block below `top`; the stack begins below it. */
char *block_below(char *top)
{
    uintptr_t align = (uintptr_t)__tls_align;
    return (char *)(((uintptr_t)top - (uintptr_t)__tls_size) & ~(align - 1));
}

static uint32_t stack_pages(size_t size)
{
    size_t all = size + (size_t)__tls_size + (size_t)__tls_align + sizeof(struct stack);
    return (uint32_t)((all + DTHREADS_PAGE - 1) / DTHREADS_PAGE);
}

/* The smallest stack of at least so many pages that was used before, or NULL. */
static struct stack *used_stack(uint32_t pages)
{
    struct stack **best = NULL;
    for (struct stack **place = &monitor.stacks; *place; place = &(*place)->next)
        if ((*place)->pages >= pages && (!best || (*place)->pages < (*best)->pages))
            best = place;
    if (!best)
        return NULL;
    struct stack *stack = *best;
    *best = stack->next;
    return stack;
}

/* New pages, of which the lowest is taken away as a guard. */
static struct stack *new_stack(uint32_t pages)
{
    char *base = heap_pages(pages + 1);
    if (!base)
        return NULL;
    dthreads_release(base, 1);
    struct stack *stack = (struct stack *)(base + (size_t)(pages + 1) * DTHREADS_PAGE) - 1;
    stack->pages = pages;
    return stack;
}

/* How many pages a new stack may have of those that are asked for. */
static uint32_t pages_allowed(uint32_t pages)
{
    uint32_t left = heap_left(), part = left / PARTS, ordinary = stack_pages(DTHREADS_STACK);
    if (pages <= ordinary || pages > stack_pages(LARGEST_SHRUNK) || (pages < left && left - pages >= DTHREADS_HEAP_PAGES / 2))
        return pages;
    if (part < ordinary)
        part = ordinary;
    return part < pages ? part : pages;
}

static struct stack *stack_take(size_t size)
{
    uint32_t pages = stack_pages(size);
    struct stack *stack = used_stack(pages);
    if (stack)
        return stack;
    pages = pages_allowed(pages);
    stack = used_stack(pages);
    return stack ? stack : new_stack(pages);
}

/* The stack and the thread-local storage are dead then, though the thread goes on with them to its last call. */
void stack_give(struct dthreads_thread *thread)
{
    struct stack *stack = thread->stack;
    if (!stack)
        return;
    hint_dead(thread->stack_base, (uint32_t)((char *)stack - thread->stack_base));
    stack->next = monitor.stacks;
    monitor.stacks = stack;
    thread->stack = NULL;
}

bool stack_attach(struct dthreads_thread *thread, const pthread_attr_t *attributes)
{
    char *top;
    thread->stack_size = attributes->stack_size;
    if (attributes->stack_address) {
        thread->stack = NULL;
        thread->stack_base = attributes->stack_address;
        top = thread->stack_base + attributes->stack_size;
    } else {
        thread->stack = stack_take(attributes->stack_size);
        if (!thread->stack)
            return false;
        top = (char *)thread->stack;
        thread->stack_base = (char *)(thread->stack + 1) - (size_t)thread->stack->pages * DTHREADS_PAGE;
        if (thread->stack_size > (uint32_t)(top - thread->stack_base))
            thread->stack_size = (uint32_t)(top - thread->stack_base);
    }
    dthreads_hint_fresh(thread->stack_base, (uint32_t)(top - thread->stack_base));
    thread->block = block_below(top);
    thread->stack_top = (uint32_t)(uintptr_t)thread->block & ~UINT32_C(15);
    return true;
}

size_t dthreads_ample_stack(void);

/* The bytes of a new thread's stack if a library leaves them to this one: that of Rust does. */
size_t dthreads_ample_stack(void)
{
    return monitor.living <= AMPLE_STACKS ? AMPLE_STACK : DTHREADS_STACK;
}
