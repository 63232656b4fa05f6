# Every form of the A extension, fences, and the upper immediates. Exits with a sum over what was read.
        .globl  _start
_start:
        lui     s0, 0x20
        auipc   s1, 0
        la      s0, cell
        li      t0, 5
1:      lr.w.aq t1, (s0)
        add     t2, t1, t0
        sc.w.rl t3, t2, (s0)
        bnez    t3, 1b
        add     a0, x0, t1
2:      lr.d    t1, (s0)
        sc.d.aqrl t3, t0, (s0)
        bnez    t3, 2b
        add     a0, a0, t1
        amoswap.w t1, t0, (s0)
        add     a0, a0, t1
        amoadd.d.aq t1, t0, (s0)
        add     a0, a0, t1
        amoxor.w.rl t1, t0, (s0)
        add     a0, a0, t1
        amoand.d t1, t0, (s0)
        add     a0, a0, t1
        amoor.w.aqrl t1, t0, (s0)
        add     a0, a0, t1
        amomin.d t1, t0, (s0)
        add     a0, a0, t1
        amomax.w t1, t0, (s0)
        add     a0, a0, t1
        amominu.d t1, t0, (s0)
        add     a0, a0, t1
        amomaxu.w t1, t0, (s0)
        add     a0, a0, t1
        fence   rw, rw
        fence   iorw, w
        fence.i
        mulhsu  t4, t1, t2
        remuw   t5, t1, t2
        sraiw   t6, t1, 31
        srai    t6, t1, 63
        andi    a0, a0, 127
        li      a7, 93
        ecall
        ebreak
        .word   0xffffffff
        .data
        .balign 8
cell:   .dword  9
