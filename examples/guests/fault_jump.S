# A branch to a target that isn't a multiple of 4, not taken, and a jump to one.
        .globl  _start
_start:
        .word   0x00001363              # bne x0, x0, 6
        auipc   t0, 0
        jalr    ra, 10(t0)
