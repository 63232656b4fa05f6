# Ends with code -5: the low 32 bits of a0 count alone.
        .globl  _start
_start:
        li      a0, -5
        li      t0, 1
        slli    t0, t0, 40
        xor     a0, a0, t0
        li      a7, 93
        ecall
