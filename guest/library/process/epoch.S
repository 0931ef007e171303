# The clock of the day at the run's start, in seconds since 1970: the descriptor of a note, which only a program has that looks at
# that clock. guest/dthreads-exec and guest/dthreads-gdb find it there and put another time in its place. It isn't of the type of
# a note, as the linker would keep it in each program.
#include "dthreads/limits.h"
#ifndef DTHREADS_CLOCK
#define DTHREADS_CLOCK DTHREADS_EPOCH
#endif

    .section .dthreads.clock, "a", @progbits
    .balign 4
    .word 9, 8, 2
    .asciz "dthreads"
    .balign 4
    .globl dthreads_epoch
dthreads_epoch:
    .quad DTHREADS_CLOCK
