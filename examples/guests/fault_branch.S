# A taken branch to a target that isn't a multiple of 4.
        .globl  _start
_start:
        nop
        .word   0x00000363              # beq x0, x0, 6
