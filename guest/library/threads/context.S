# Contexts: a0 is one, whose registers are ra, sp and s0 to s11. gp and tp are the thread's, whichever context it is in.
#include "offsets.h"

    .cfi_sections .debug_frame

    .macro each_register operation
    \operation ra, CONTEXT_REGISTERS(a0)
    \operation sp, CONTEXT_REGISTERS + 4(a0)
    \operation s0, CONTEXT_REGISTERS + 8(a0)
    \operation s1, CONTEXT_REGISTERS + 12(a0)
    \operation s2, CONTEXT_REGISTERS + 16(a0)
    \operation s3, CONTEXT_REGISTERS + 20(a0)
    \operation s4, CONTEXT_REGISTERS + 24(a0)
    \operation s5, CONTEXT_REGISTERS + 28(a0)
    \operation s6, CONTEXT_REGISTERS + 32(a0)
    \operation s7, CONTEXT_REGISTERS + 36(a0)
    \operation s8, CONTEXT_REGISTERS + 40(a0)
    \operation s9, CONTEXT_REGISTERS + 44(a0)
    \operation s10, CONTEXT_REGISTERS + 48(a0)
    \operation s11, CONTEXT_REGISTERS + 52(a0)
    .endm

    .macro routine name
    .globl \name
    .type \name, @function
\name:
    .cfi_startproc
    .endm

    .macro ends name
    .cfi_endproc
    .size \name, . - \name
    .endm

    .section .text.context, "ax"
    routine getcontext
    each_register sw
    tail dthreads_context_kept
    ends getcontext

# a1 is the context to go on in: its address stays in s0 over the call, which keeps it.
    routine swapcontext
    each_register sw
    mv s0, a1
    call dthreads_context_kept
    mv a0, s0
    j setcontext
    ends swapcontext

    routine setcontext
    mv s0, a0
    call dthreads_context_taken
    mv a0, s0
    each_register lw
    li a0, 0
    ret
    ends setcontext

# Where a context of makecontext begins: s0 is its function, s1 the context, s2 the place of eight arguments.
    .globl dthreads_context_start
dthreads_context_start:
    .cfi_startproc
    .cfi_undefined ra
    lw a0, 0(s2)
    lw a1, 4(s2)
    lw a2, 8(s2)
    lw a3, 12(s2)
    lw a4, 16(s2)
    lw a5, 20(s2)
    lw a6, 24(s2)
    lw a7, 28(s2)
    jalr s0
    mv a0, s1
    call dthreads_context_ended
    .cfi_endproc
