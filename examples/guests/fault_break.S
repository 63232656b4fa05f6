# EBREAK.
        .globl  _start
_start:
        nop
        ebreak
