// Hart 0 puts the numbers from 1 to 600 into a ring of 16 places; the others take them out and add them up. Alone, it takes them out
// itself.
#include "harts.h"

#define NUMBERS 600
#define PLACES 16

static volatile u64 ring[PLACES];
static u64 put_in;
static u64 taken_out;
static u64 lock;
static u64 sum;

// Takes one number, where there is one; whether all were taken.
static int take(void)
{
    if (__atomic_exchange_n(&lock, 1, __ATOMIC_ACQUIRE))
        return 0;
    u64 at = __atomic_load_n(&taken_out, __ATOMIC_RELAXED);
    if (at < __atomic_load_n(&put_in, __ATOMIC_ACQUIRE)) {
        __atomic_fetch_add(&sum, ring[at % PLACES], __ATOMIC_RELAXED);
        __atomic_store_n(&taken_out, at + 1, __ATOMIC_RELEASE);
        at++;
    }
    __atomic_store_n(&lock, 0, __ATOMIC_RELEASE);
    return at == NUMBERS;
}

void _start(u64 hart, u64 harts)
{
    if (hart == 0) {
        for (u64 number = 1; number <= NUMBERS; number++) {
            while (number > __atomic_load_n(&taken_out, __ATOMIC_ACQUIRE) + PLACES)
                if (harts == 1)
                    take();
            ring[(number - 1) % PLACES] = number;
            __atomic_store_n(&put_in, number, __ATOMIC_RELEASE);
        }
        if (harts > 1)
            leave_last(harts, "sum", &sum);
    }
    while (!take())
        ;
    leave_last(harts, "sum", &sum);
}
