# The entry of a program that is tried with numbers: the registers of the first thread that have the run's number, and how many choices
# the library may make, are loaded from here. A tool writes both behind the mark.
    .section .text.numbered, "ax"
    .globl numbered
numbered:
    auipc t0, 0
    lw a0, 32(t0)
    lw a1, 36(t0)
    j _start
    .balign 4
mark:
    .ascii "number, choices:"
    .word 0, 0
