# An atomic operation on code, which can be read but not written.
        .globl  _start
_start:
        auipc   t0, 0
        amoor.w x0, x0, (t0)
