# A loop without an end.
        .globl  _start
_start:
        j       _start
