# Writes from the end of the stack and past it. Exits with the number of the first case that fails, or 0.
        .globl  _start
_start:
        li      a7, 64
        li      s0, 1
        li      a0, 1
        addi    a1, sp, -16
        li      a2, 16
        ecall
        addi    a0, a0, -16
        bnez    a0, failed
        li      s0, 2
        li      a0, 1
        li      a2, 17
        ecall
        addi    a0, a0, 14
        bnez    a0, failed
        li      s0, 3
        li      a0, 0                   # descriptor 0 is refused first
        ecall
        addi    a0, a0, 9
        bnez    a0, failed
        li      s0, 4
        li      a0, 2
        li      a2, 0                   # nothing is asked of no bytes
        li      a1, 1
        ecall
        bnez    a0, failed
        li      s0, 5
        li      a0, 1
        lui     t0, 1
        sub     a1, sp, t0              # of 5,000 bytes the first 4,096 alone are looked at
        li      a2, 5000
        ecall
        sub     a0, a0, t0
        bnez    a0, failed
        li      s0, 0
failed: mv      a0, s0
        li      a7, 93
        ecall
