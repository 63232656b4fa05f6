// Each hart adds 1 to one sum a thousand times, by AMOADD.
#include "harts.h"

static u64 sum;

void _start(u64 hart, u64 harts)
{
    (void)hart;
    for (int i = 0; i < 1000; i++)
        __atomic_fetch_add(&sum, 1, __ATOMIC_RELAXED);
    leave_last(harts, "sum", &sum);
}
