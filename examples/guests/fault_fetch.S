# A jump to an address without code.
        .globl  _start
_start:
        lui     t0, 0x30
        jalr    x0, 0(t0)
