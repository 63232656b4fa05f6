# What a reservation of the aligned 8 bytes allows. Exits with the number of the first case that fails, or 0.
        .globl  _start
_start:
        la      s1, cells
        li      t0, 77
        li      s0, 1
        lr.w    t1, (s1)
        sd      x0, 0(s1)               # a store of the same hart ends nothing
        sc.w    t2, t0, (s1)
        bnez    t2, failed
        li      s0, 2
        addi    s2, s1, 4
        lr.w    t1, (s1)
        sc.w    t2, t0, (s2)            # the other half
        bnez    t2, failed
        li      s0, 3
        lr.w    t1, (s2)
        sc.d    t2, t0, (s1)            # all 8 bytes, after LR of the upper 4
        bnez    t2, failed
        li      s0, 4
        addi    s3, s1, 8
        lr.d    t1, (s1)
        amoadd.d x0, t0, (s1)
        sc.w    t2, t0, (s3)            # the next 8 bytes
        addi    t2, t2, -1
        bnez    t2, failed
        li      s0, 5
        sc.d    t2, x0, (s1)            # a failing SC has ended it
        addi    t2, t2, -1
        bnez    t2, failed
        li      s0, 6
        ld      t1, 0(s1)
        addi    t1, t1, -154
        bnez    t1, failed
        li      s0, 7
        ld      t1, 8(s1)
        bnez    t1, failed
        li      s0, 0
failed: mv      a0, s0
        li      a7, 93
        ecall
        .bss
        .balign 8
cells:  .space  16
