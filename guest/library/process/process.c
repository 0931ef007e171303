/* The run's beginning and end. */
#include <stdlib.h>
#include <unistd.h>
#include "../files/console.h"
#include "../files/packed.h"

/* Only a program in C++ with its library has it. */
__attribute__((weak)) void dthreads_unwind_begin(void);

/* Only a program that asks for its environment has it. */
#pragma weak environ

/* The status of a program that SIGABRT ended. */
#define ABORTED 134

extern void (*const __init_array_start[])(void);
extern void (*const __init_array_end[])(void);
extern void (*const __fini_array_start[])(void);
extern void (*const __fini_array_end[])(void);

__attribute__((weak)) void __call_exitprocs(int, void *);
int main(int, char **, char **);

extern char *dthreads_arguments[];

/* The name that main began with: a program may change its arguments. */
const char *dthreads_program_name;

static int count_arguments(char **arguments)
{
    int count = 0;
    while (arguments[count])
        count++;
    return count;
}

__attribute__((noreturn)) static void run(char **arguments, char **environment)
{
    dthreads_program_name = arguments[0];
    if (dthreads_unwind_begin)
        dthreads_unwind_begin();
    for (void (*const *each)(void) = __init_array_start; each < __init_array_end; each++)
        (*each)();
    exit(main(count_arguments(arguments), arguments, environment));
}

/* With the registers in which the run may have a number and how many choices it may make, see vary.h. */
__attribute__((noreturn)) void dthreads_first(uint32_t number, uint32_t choices)
{
    static char *no_environment[] = {NULL};
    vary_begin(number, choices);
    thread_begin();
    if (files_begin)
        files_begin();
    run(dthreads_arguments, no_environment);
}

/* As above, if guest/dthreads-exec started the run: arguments and environment lie on the first thread's stack. */
__attribute__((noreturn)) void dthreads_first_packed(uint32_t number, uint32_t choices)
{
    struct packed packed;
    vary_begin(number, choices);
    thread_begin();
    if (files_begin)
        files_begin();
    packed_begin(&packed);
    char *arguments[packed.arguments + 1], *variables[packed.variables + 1], texts[packed.bytes + 1];
    packed_texts(&packed, texts, arguments, variables);
    packed_records();
    console_is_framed = true;
    if (&environ)
        environ = variables;
    run(arguments, variables);
}

void _exit(int status)
{
    if (files_deliver)
        files_deliver();
    dthreads_exit((uint32_t)status);
}

void _Exit(int status)
{
    _exit(status);
}

void exit(int status)
{
    /* (nobody is cancelled any more) */
    own.ending = true;
    if (__call_exitprocs)
        __call_exitprocs(status, NULL);
    for (void (*const *each)(void) = __fini_array_end; each > __fini_array_start;)
        (*--each)();
    output_flush();
    if (streams_flush)
        streams_flush();
    _exit(status);
}

__attribute__((weak)) void signals_abort(void);

void abort(void)
{
    if (signals_abort)
        signals_abort();
    output_flush();
    _exit(ABORTED);
}
