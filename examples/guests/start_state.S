# The registers and the stack at start, on one hart. Exits with the number of the first case that fails, or 0.
        .globl  _start
_start:
        or      gp, gp, ra
        or      gp, gp, tp
        or      gp, gp, t0
        or      gp, gp, t1
        or      gp, gp, t2
        or      gp, gp, s0
        or      gp, gp, s1
        or      gp, gp, a2
        or      gp, gp, a3
        or      gp, gp, a4
        or      gp, gp, a5
        or      gp, gp, a6
        or      gp, gp, a7
        or      gp, gp, s2
        or      gp, gp, s3
        or      gp, gp, s4
        or      gp, gp, s5
        or      gp, gp, s6
        or      gp, gp, s7
        or      gp, gp, s8
        or      gp, gp, s9
        or      gp, gp, s10
        or      gp, gp, s11
        or      gp, gp, t3
        or      gp, gp, t4
        or      gp, gp, t5
        or      gp, gp, t6
        li      s0, 1
        bnez    gp, failed
        li      s0, 2
        bnez    a0, failed
        li      s0, 3
        addi    a1, a1, -1
        bnez    a1, failed
        li      s0, 4
        li      t0, 1
        slli    t0, t0, 38
        lui     t1, 0x10
        sub     t0, t0, t1
        bne     sp, t0, failed
        li      s0, 5
        sub     t0, sp, t1              # the first bytes of the stack
        ld      t2, 0(t0)
        bnez    t2, failed
        li      s0, 0
failed: mv      a0, s0
        li      a7, 93
        ecall
