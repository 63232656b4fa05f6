# Straight code over several pages: blocks that end at 512 instructions and at the ends of pages.
        .globl  _start
        .balign 4096
        .space  80
_start:
        li      s0, 0
        .rept   1100
        addi    s0, s0, 1
        .endr
        j       1f
        .space  2 * 4096 - 4 - 80 - 4 * 1102
1:      addi    s0, s0, 1               # the last word of a page
        .rept   600
        addi    s0, s0, 1
        .endr
        li      t0, 1701
        sub     a0, s0, t0
        li      a7, 93
        ecall
