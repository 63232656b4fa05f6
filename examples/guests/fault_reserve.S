# LR where nothing is mapped.
        .globl  _start
_start:
        lui     t0, 0x30
        lr.d    t1, (t0)
