# Jumps forwards, backwards, far and through registers. Exits with the number of the first case that fails, or 0.
        .globl  _start
        .option norelax
_start:
        li      s0, 1
        jal     t0, 2f                  # forwards; the link is the next address
1:      jal     x0, 4f
2:      la      t1, 1b
        bne     t0, t1, failed
        li      s0, 2
        la      t1, 3f
        jalr    t1, 0(t1)               # the target uses the register from before
after_third:
        j       failed
3:      la      t2, after_third
        bne     t1, t2, failed
        li      s0, 3
        j       1b                      # backwards
4:      li      s0, 4
        la      t1, 5f
        jalr    x0, 1(t1)               # bit 0 of the target is cleared
        j       failed
5:      li      s0, 5
        la      t1, 6f
        addi    t1, t1, -2047
        jalr    ra, 2047(t1)
        j       failed
6:      li      s0, 6
        la      t1, 7f
        addi    t1, t1, 2047
        addi    t1, t1, 1
        jalr    ra, -2048(t1)
        j       failed
7:      li      s0, 7
        la      t1, 8f
        addi    t1, t1, -2
        jalr    x0, 2(t1)               # the sum alone has to be a multiple of 4
        j       failed
8:      li      s0, 8
        jal     ra, far                 # past the end of the page
        li      s0, 9
        call    far                     # by AUIPC and JALR
        li      s0, 10
        beq     x0, x0, 9f
        j       failed
        .balign 4096
9:      bne     x0, x0, failed
        li      s0, 11
        li      t0, 100
10:     addi    t0, t0, -1
        bgtz    t0, 10b
        bnez    t0, failed
        li      s0, 0
failed:
        mv      a0, s0
        li      a7, 93
        ecall
        .space  4096
far:    jalr    x0, 0(ra)
