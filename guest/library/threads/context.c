/* Contexts: context.S keeps and takes the registers. A switch to a context with the thread's own signal mask takes no turn. */
#include <stdarg.h>
#include <stddef.h>
#include <ucontext.h>
#include "monitor.h"

enum {
    /* Places in the registers of a context, and what a new one finds there. */
    RETURN_ADDRESS = 0,
    STACK = 1,
    FUNCTION = 2,
    CONTEXT = 3,
    ARGUMENTS = 4,
    /* Arguments in registers, and bytes to which the stack is aligned. */
    IN_REGISTERS = 8,
    ALIGNMENT = 16
};

_Static_assert(offsetof(ucontext_t, uc_mcontext) == CONTEXT_REGISTERS, "context.S");

void dthreads_context_start(void);

int dthreads_context_kept(ucontext_t *context)
{
    context->uc_sigmask = self()->blocked;
    return 0;
}

void dthreads_context_taken(const ucontext_t *context)
{
    if (context->uc_sigmask != self()->blocked)
        pthread_sigmask(SIG_SETMASK, &context->uc_sigmask, NULL);
}

/* The end of a context's function: the context behind it, or the end of the thread. */
void dthreads_context_ended(const ucontext_t *context)
{
    if (context->uc_link)
        setcontext(context->uc_link);
    pthread_exit(NULL);
}

void makecontext(ucontext_t *context, void (*function)(void), int count, ...)
{
    unsigned long *registers = context->uc_mcontext.__registers;
    uintptr_t top = (uintptr_t)context->uc_stack.ss_sp + context->uc_stack.ss_size;
    uint32_t *first = (uint32_t *)((top - IN_REGISTERS * sizeof *first) / ALIGNMENT * ALIGNMENT);
    size_t others = count > IN_REGISTERS ? (size_t)count - IN_REGISTERS : 0;
    uint32_t *stack = (uint32_t *)((uintptr_t)(first - others) / ALIGNMENT * ALIGNMENT);
    va_list list;
    va_start(list, count);
    for (int i = 0; i < count; i++)
        *(i < IN_REGISTERS ? first + i : stack + i - IN_REGISTERS) = va_arg(list, uint32_t);
    va_end(list);
    registers[RETURN_ADDRESS] = (uintptr_t)dthreads_context_start;
    registers[STACK] = (uintptr_t)stack;
    registers[FUNCTION] = (uintptr_t)function;
    registers[CONTEXT] = (uintptr_t)context;
    registers[ARGUMENTS] = (uintptr_t)first;
}
