# Ends the group of harts with code 7, after a call that does nothing.
        .globl  _start
_start:
        jal     ra, 1f
        li      a0, 7
        li      a7, 94
        ecall
        ebreak
1:      ret
