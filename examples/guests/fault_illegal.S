# A jump to an illegal word, which starts a block.
        .globl  _start
_start:
        j       1f
1:      .word   0
