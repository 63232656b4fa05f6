# A load whose upper half lies past the end of the stack.
        .globl  _start
_start:
        lw      t1, -4(sp)
        ld      t1, -4(sp)
