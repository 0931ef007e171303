# Thread 0 counts in a0 for 1000 times, storing each number, and exits with 3.
    .globl main
main:
    li a0, 0
    li a1, 1000
    la a2, number
1:  addi a0, a0, 1
    sw a0, 0(a2)
    mul a3, a0, a0
    xor a4, a4, a3
    bne a0, a1, 1b
    li a0, 3
    ret

    .data
    .balign 4
    .globl number
number:
    .word 0
