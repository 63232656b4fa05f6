// Two numbers that are equal outside a lock. Each hart counts both up a hundred times; one that sees them differ ends the group
// with 1.
#include "harts.h"

static u32 lock;
static volatile u64 first;
static volatile u64 second;

static void count_up(void)
{
    while (__atomic_exchange_n(&lock, 1, __ATOMIC_ACQUIRE))
        ;
    u64 was = first;
    first = was + 1;
    if (second != was)
        service(94, 1, 0, 0);
    second = was + 1;
    __atomic_store_n(&lock, 0, __ATOMIC_RELEASE);
}

void _start(u64 hart, u64 harts)
{
    (void)hart;
    for (int i = 0; i < 100; i++)
        count_up();
    leave_last(harts, "both", (u64 *)&first);
}
