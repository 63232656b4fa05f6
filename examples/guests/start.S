# Start of the guests that are linked with the C library: gp, the thread's variables, then main, then exit.
        .section .text.init.enter, "ax", @progbits
        .globl  _start
_start:
        .option push
        .option norelax
        la      gp, __global_pointer$
        .option pop
        la      tp, thread
        call    main
        li      a7, 93
        ecall
        .bss
        .balign 16
thread: .space  64
