# Where threads begin. The machine gives a new thread sp, a0 and a1 alone, so gp and tp are set here. The first one has in a0 the
# run's number, and in a1 how many choices the library may make: both stay for the routine that is called.
#include "offsets.h"

    .cfi_sections .debug_frame

# Begins a routine that nobody called: a debugger's list of callers ends there.
    .macro outermost routine
    .globl \routine
\routine:
    .cfi_startproc
    .cfi_undefined ra
    .endm

    .macro load_gp
    .option push
    .option norelax
    la gp, __global_pointer$
    .option pop
    .endm

    .section .text.start, "ax"
    outermost _start
    load_gp
    la tp, __tls_first
    call dthreads_first
    .cfi_endproc

# The entry if guest/dthreads-exec started the run: the note of the file has its address.
    outermost dthreads_start_packed
    load_gp
    la tp, __tls_first
    call dthreads_first_packed
    .cfi_endproc

# A thread of the library: a0 is its record, which has its stack and its thread-local block.
    outermost dthreads_thread_entry
    load_gp
    mv s0, a0
    # The hint by which the library's own data begin.
    sltu x0, x0, x0
.Lagain:
    lw sp, THREAD_STACK(s0)
    lw tp, THREAD_BLOCK(s0)
    mv a0, s0
    call dthreads_thread_run
    .cfi_endproc

# A thread that has ended waits for the next start routine, without a stack: a0 is its record, a1 its condition, a2 the
# place that counts who waits for it. It holds the monitor when it comes and when it is woken.
    outermost dthreads_thread_park
    mv s0, a0
    mv s1, a1
    mv s2, a2
1:  lw t0, 0(s2)
    addi t0, t0, 1
    sw t0, 0(s2)
    mv a0, s1
    li a1, MONITOR_MUTEX
    li a7, 7
    ecall
    lw t0, THREAD_WOKEN(s0)
    beqz t0, 1b
    li a0, MONITOR_MUTEX
    li a7, 6
    ecall
    j .Lagain
    .cfi_endproc

# A thread that dthreads_create made: at a0 stand its routine, its argument and its thread-local block.
    outermost dthreads_plain_entry
    load_gp
    lw tp, 8(a0)
    call dthreads_plain_run
    .cfi_endproc

# What the assembler is told to call in place of FENCE: all registers stay. The caller kept its ra 12 bytes above its sp, see
# dthreads/prelude.h. So a debugger finds there what ra is in the caller; where the call returns to is column 64, which stands for
# no register. The routine gets the registers of the caller, each at the place of its number, and in that of x0 where the call returns to.
    .macro kept routine
    .cfi_startproc
    .cfi_return_column 64
    .cfi_register 64, ra
    .cfi_offset ra, 12
    addi sp, sp, -128
    .cfi_adjust_cfa_offset 128
    sw ra, 0(sp)
    .cfi_rel_offset 64, 0
    sw t0, 20(sp)
    .cfi_rel_offset t0, 20
    sw t1, 24(sp)
    .cfi_rel_offset t1, 24
    sw t2, 28(sp)
    .cfi_rel_offset t2, 28
    sw a0, 40(sp)
    .cfi_rel_offset a0, 40
    sw a1, 44(sp)
    .cfi_rel_offset a1, 44
    sw a2, 48(sp)
    .cfi_rel_offset a2, 48
    sw a3, 52(sp)
    .cfi_rel_offset a3, 52
    sw a4, 56(sp)
    .cfi_rel_offset a4, 56
    sw a5, 60(sp)
    .cfi_rel_offset a5, 60
    sw a6, 64(sp)
    .cfi_rel_offset a6, 64
    sw a7, 68(sp)
    .cfi_rel_offset a7, 68
    sw t3, 112(sp)
    .cfi_rel_offset t3, 112
    sw t4, 116(sp)
    .cfi_rel_offset t4, 116
    sw t5, 120(sp)
    .cfi_rel_offset t5, 120
    sw t6, 124(sp)
    .cfi_rel_offset t6, 124
    sw gp, 12(sp)
    sw tp, 16(sp)
    sw s0, 32(sp)
    sw s1, 36(sp)
    sw s2, 72(sp)
    sw s3, 76(sp)
    sw s4, 80(sp)
    sw s5, 84(sp)
    sw s6, 88(sp)
    sw s7, 92(sp)
    sw s8, 96(sp)
    sw s9, 100(sp)
    sw s10, 104(sp)
    sw s11, 108(sp)
    lw t0, 140(sp)
    sw t0, 4(sp)
    addi t0, sp, 144
    sw t0, 8(sp)
    mv a0, sp
    call \routine
    lw ra, 0(sp)
    .cfi_register 64, ra
    lw t0, 20(sp)
    .cfi_restore t0
    lw t1, 24(sp)
    .cfi_restore t1
    lw t2, 28(sp)
    .cfi_restore t2
    lw a0, 40(sp)
    .cfi_restore a0
    lw a1, 44(sp)
    .cfi_restore a1
    lw a2, 48(sp)
    .cfi_restore a2
    lw a3, 52(sp)
    .cfi_restore a3
    lw a4, 56(sp)
    .cfi_restore a4
    lw a5, 60(sp)
    .cfi_restore a5
    lw a6, 64(sp)
    .cfi_restore a6
    lw a7, 68(sp)
    .cfi_restore a7
    lw t3, 112(sp)
    .cfi_restore t3
    lw t4, 116(sp)
    .cfi_restore t4
    lw t5, 120(sp)
    .cfi_restore t5
    lw t6, 124(sp)
    .cfi_restore t6
    addi sp, sp, 128
    .cfi_adjust_cfa_offset -128
    ret
    .cfi_endproc
    .endm

    .section .text.fence, "ax"
    .globl __dthreads_fence
__dthreads_fence:
    kept dthreads_fence
    .globl __dthreads_sync
__dthreads_sync:
    kept dthreads_synchronise

# What guest/dthreads-exec looks for in a file: that this library started the program, the version of the form in which
# arguments, environment and files come, and the entry that reads it.
    .section .note.dthreads, "a", @note
    .balign 4
    .word 9, 8, 1
    .asciz "dthreads"
    .balign 4
    .word 1, dthreads_start_packed

# The linker takes the locks that the C library asks for from this library, and not from picolibc, where they do nothing: this word asks for
# them first. Nothing needs the word itself, so it is in no program, and the locks are in those alone that use them.
    .section .rodata.locks, "a"
    .balign 4
    .word __lock___libc_recursive_mutex
