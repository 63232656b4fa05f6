// The harts pass a barrier a hundred times. Between two of them each hart writes the round to its own place, and then reads those
// of all; one that reads another round ends the group with 1.
#include "harts.h"

#define ROUNDS 100

static u64 waiting;
static u64 passed;
static volatile u64 rounds[32];

static void pass(u64 harts)
{
    u64 before = __atomic_load_n(&passed, __ATOMIC_ACQUIRE);
    if (__atomic_fetch_add(&waiting, 1, __ATOMIC_ACQ_REL) + 1 == harts) {
        __atomic_store_n(&waiting, 0, __ATOMIC_RELAXED);
        __atomic_store_n(&passed, before + 1, __ATOMIC_RELEASE);
        return;
    }
    while (__atomic_load_n(&passed, __ATOMIC_ACQUIRE) == before)
        ;
}

void _start(u64 hart, u64 harts)
{
    for (u64 round = 1; round <= ROUNDS; round++) {
        rounds[hart] = round;
        pass(harts);
        for (u64 other = 0; other < harts; other++)
            if (rounds[other] != round)
                service(94, 1, 0, 0);
        pass(harts);
    }
    leave_last(harts, "passed", &passed);
}
