# The end of the code, where a block would start.
        .globl  _start
_start:
        li      a7, 1000
        ecall
