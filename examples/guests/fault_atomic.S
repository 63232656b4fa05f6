# An atomic operation at an address that is neither aligned nor permitted.
        .globl  _start
_start:
        li      t0, 2
        amoadd.w t1, t0, (t0)
