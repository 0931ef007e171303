# Thread 0 creates a thread by the machine's own calls, joins it and returns what it stored.
    .globl main
main:
    la a0, child
    li a1, 5
    la a2, stack_end
    li a7, 3
    ecall
    mv a0, a1
    li a7, 4
joining:
    ecall
joined:
    la a0, number
    lw a0, 0(a0)
    ret

child:
    la t0, number
    sw a0, 0(t0)
    li a0, 0
    li a7, 2
leaving:
    ecall

    .data
    .balign 16
    .skip 64
stack_end:
    .globl number
number:
    .word 0
