// Hart 0 starts the others by the service 4096, each at its own place and with its own argument, and checks what the service refuses:
// a hart that runs, a hart that isn't there, and a place that is no multiple of 4. It is for the mode in which hart 0 alone starts.
#include "harts.h"

static u64 sum;

static void other(u64 hart, u64 harts, u64 argument)
{
    __atomic_fetch_add(&sum, hart + argument, __ATOMIC_RELAXED);
    leave_last(harts, "sum", &sum);
}

void _start(u64 hart, u64 harts)
{
    (void)hart;
    if (service(4096, 0, (i64)other, 0) != -16 || service(4096, (i64)harts, (i64)other, 0) != -22
        || service(4096, 0, (i64)other + 2, 0) != -22)
        service(94, 1, 0, 0);
    for (u64 h = 1; h < harts; h++)
        if (service(4096, (i64)h, (i64)other, (i64)(1000 * h)))
            service(94, 2, 0, 0);
    for (u64 h = 1; h < harts; h++)
        if (service(4096, (i64)h, (i64)other, 0) != -16)
            service(94, 3, 0, 0);
    leave_last(harts, "sum", &sum);
}
