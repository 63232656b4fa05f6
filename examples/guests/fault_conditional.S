# SC to code, without a reservation: the permission is asked first.
        .globl  _start
_start:
        auipc   t0, 0
        sc.w    t1, t0, (t0)
