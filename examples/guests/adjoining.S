# Code in two executable segments, of which the second begins where the first one ends: a block goes on from one into
# the other. Exits with 0.
        .section .first, "ax"
        .globl  _start
_start:
        li      s0, 1
        addi    s0, s0, 1
        addi    s0, s0, 1               # the last word of the first segment
        .section .second, "ax"
        addi    s0, s0, 1
        j       1f
1:      addi    a0, s0, -4
        li      a7, 93
        ecall
