# A load to x0 is made all the same.
        .globl  _start
_start:
        ld      x0, 0(x0)
