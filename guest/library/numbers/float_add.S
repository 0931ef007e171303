/* Sums and differences of floats whose exponents are less than 32 apart, if the result is as long as the larger operand: its word then
 * keeps exponent and sign. float.c has all other cases. */
#define SIGN_BIT 0x80000
#define FIRST_BIT 0x800
#define ROOM 9
#define FRACTION_BITS 23
#define TOP_EXPONENT 255

    .cfi_sections .debug_frame

    .section .text.__addsf3, "ax", @progbits
    .globl __addsf3
    .globl __subsf3
    .type __addsf3, @function
    .type __subsf3, @function
__subsf3:
    .cfi_startproc
    lui t0, SIGN_BIT
    xor a1, a1, t0

__addsf3:
    slli t0, a0, 1
    slli t1, a1, 1
    bltu t0, t1, swap

/* The operand in a0 has the larger magnitude. t0 and t1 get the exponents, t2 their distance. */
    srli t0, t0, FRACTION_BITS + 1
    srli t1, t1, FRACTION_BITS + 1
exponents:
    sub t2, t0, t1
    li t3, TOP_EXPONENT
    beq t0, t3, others
    srli t3, t2, 5
    bnez t3, others
    beqz t1, others

    /* The smaller fraction moves down to t4, and what is lost of it to t6. */
    lui t3, FIRST_BIT
    slli t4, a1, ROOM
    srli t4, t4, ROOM
    or t4, t4, t3
    not t5, t2
    slli t6, t4, 1
    sll t6, t6, t5
    srl t4, t4, t2
    xor a4, a0, a1
    bltz a4, subtract

    add t4, a0, t4
    xor a5, t4, a0
    srli a5, a5, FRACTION_BITS
    bnez a5, longer

/* Rounds t4 by t6. */
round:
    srli a5, t6, 31
    slli t6, t6, 1
    add a0, t4, a5
    beqz t6, halfway
    ret

/* Exact, or half-way between two numbers: then the even one. */
halfway:
    not a5, a5
    and a0, a0, a5
    ret

subtract:
    snez a5, t6
    sub t4, a0, t4
    sub t4, t4, a5
    neg t6, t6
    xor a5, t4, a0
    srli a5, a5, FRACTION_BITS
    beqz a5, round

    mv a1, t4
    mv a2, t6
    tail dthreads_float_shorter

longer:
    mv a1, t4
    mv a2, t6
    tail dthreads_float_longer

swap:
    mv t2, a0
    mv a0, a1
    mv a1, t2
    srli t2, t0, FRACTION_BITS + 1
    srli t0, t1, FRACTION_BITS + 1
    mv t1, t2
    j exponents

others:
    tail dthreads_float_add
    .cfi_endproc
    .size __addsf3, . - __addsf3
