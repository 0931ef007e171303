/* Sums and differences of doubles whose exponents are less than 32 apart, if the result is as long as the larger operand, or a difference
 * that is shorter by a bit: its upper word keeps exponent and sign. double.c has all other cases. */
#define SIGN_BIT 0x80000
#define FIRST_BIT 0x100
#define HEAD_BITS 0xfff00
#define ROOM 12
#define FRACTION_BITS 20
#define TOP_EXPONENT 2047

    .cfi_sections .debug_frame

/* Exchanges the operands, so that a0 and a1 have the larger one. */
    .macro exchange is_exchanged
    .if \is_exchanged
    mv t1, a0
    mv a0, a2
    mv a2, t1
    mv t1, a1
    mv a1, a3
    mv a3, t1
    .endif
    .endm

/* The first operand has the larger magnitude; `a` is its upper word, t0 and t1 are both upper words without their signs. t2 gets the
 * distance of the exponents. */
    .macro combine al, a, bl, b, is_exchanged
    srli t0, t0, FRACTION_BITS + 1
    srli t1, t1, FRACTION_BITS + 1
    sub t2, t0, t1
    li t3, TOP_EXPONENT
    beq t0, t3, others\@
    srli t3, t2, 5
    bnez t3, others\@
    beqz t1, others\@

    /* The smaller fraction moves down to t4 and t3, and what is lost of it to t6. */
    lui t3, FIRST_BIT
    slli t4, \b, ROOM
    srli t4, t4, ROOM
    or t4, t4, t3
    not t5, t2
    slli t6, \bl, 1
    sll t6, t6, t5
    slli t3, t4, 1
    sll t3, t3, t5
    srl a4, \bl, t2
    or t3, t3, a4
    srl t4, t4, t2
    xor a4, a1, a3
    bltz a4, subtract\@

    add t3, \al, t3
    sltu a5, t3, \al
    add t4, \a, t4
    add t4, t4, a5
    xor a5, t4, \a
    srli a5, a5, FRACTION_BITS
    bnez a5, longer\@

/* Rounds t4 and t3 by t6. */
round\@:
    srli a5, t6, 31
    slli t6, t6, 1
    add a0, t3, a5
    sltu a1, a0, a5
    add a1, a1, t4
    beqz t6, halfway
    ret

subtract\@:
    snez a5, t6
    sltu a4, \al, t3
    sub t3, \al, t3
    sltu a6, t3, a5
    sub t3, t3, a5
    sub t4, \a, t4
    sub t4, t4, a4
    sub t4, t4, a6
    neg t6, t6
    xor a5, t4, \a
    srli a5, a5, FRACTION_BITS
    beqz a5, round\@

    /* Shorter by a bit than the larger operand, whose exponent is in t0; a4 gets the operand's head. */
    lui a4, HEAD_BITS
    and a4, \a, a4
    lui a5, FIRST_BIT
    sub t4, t4, a4
    add t4, t4, a5
    srli a6, t3, 31
    slli t4, t4, 1
    or t4, t4, a6
    srli a6, t6, 31
    slli t3, t3, 1
    or t3, t3, a6
    slli t6, t6, 1
    bltu t4, a5, shorter\@
    addi a6, t0, -1
    beqz a6, others\@
    sub t4, t4, a5
    sub t4, t4, a5
    add t4, t4, a4
    j round\@

/* By more bits: then it is exact. */
shorter\@:
    exchange \is_exchanged
    mv a4, t4
    mv a5, t3
    tail dthreads_double_shorter

longer\@:
    mv a0, \a
    mv a1, t4
    mv a2, t3
    mv a3, t6
    tail dthreads_double_longer

others\@:
    exchange \is_exchanged
    tail dthreads_double_add
    .endm

    .section .text.__adddf3, "ax", @progbits
    .globl __adddf3
    .globl __subdf3
    .type __adddf3, @function
    .type __subdf3, @function
__subdf3:
    .cfi_startproc
    lui t0, SIGN_BIT
    xor a3, a3, t0

/* The operands are in a0 and a2, their upper words in a1 and a3. */
__adddf3:
    slli t0, a1, 1
    slli t1, a3, 1
    bltu t0, t1, exchanged
    beq t0, t1, equal_heads
ordered:
    combine a0, a1, a2, a3, 0

equal_heads:
    bgeu a0, a2, ordered
exchanged:
    mv t2, t0
    mv t0, t1
    mv t1, t2
    combine a2, a3, a0, a1, 1

/* Exact, or half-way between two numbers: then the even one. */
halfway:
    not a5, a5
    and a0, a0, a5
    ret
    .cfi_endproc
    .size __adddf3, . - __adddf3
