# A store to code. What was written before stays.
        .globl  _start
_start:
        li      a0, 1
        la      a1, text
        li      a2, 7
        li      a7, 64
        ecall
        auipc   t0, 0
        sd      x0, 0(t0)
        .section .rodata
text:   .ascii  "before\n"
