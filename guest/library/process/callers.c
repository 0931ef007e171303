/* Lists of a thread's callers, which are empty: functions of C have no unwind tables. */
#include <execinfo.h>
#include <stdio.h>
#include <stdlib.h>
#include <string.h>
#include <unistd.h>

enum {
    /* "0x" and eight digits, with the zero at their end. */
    TEXT = 11
};

/* A program may have functions of these names. */
#pragma weak backtrace
#pragma weak backtrace_symbols
#pragma weak backtrace_symbols_fd

int backtrace(void **callers, int room)
{
    (void)callers;
    (void)room;
    return 0;
}

/* The texts of addresses, in one block with their table. */
char **backtrace_symbols(void *const *callers, int count)
{
    char **table = malloc((size_t)count * (sizeof *table + TEXT) + 1);
    char *text = (char *)(table + count);
    for (int i = 0; table && i < count; i++, text += TEXT) {
        snprintf(text, TEXT, "0x%08lx", (unsigned long)callers[i]);
        table[i] = text;
    }
    return table;
}

void backtrace_symbols_fd(void *const *callers, int count, int descriptor)
{
    for (int i = 0; i < count; i++)
        dprintf(descriptor, "0x%08lx\n", (unsigned long)callers[i]);
}
