// Primes by a sieve, again and again: the longest guest, for timing.
#include "guest.h"

#define LIMIT 15000

static u8 crossed[LIMIT];

static u64 primes(void)
{
    u64 found = 0;
    for (u64 i = 0; i < LIMIT; i++)
        crossed[i] = 0;
    for (u64 i = 2; i < LIMIT; i++) {
        if (crossed[i])
            continue;
        found++;
        for (u64 j = i * i; j < LIMIT; j += i)
            crossed[j] = 1;
    }
    return found;
}

void _start(void)
{
    u64 sum = 0;
    for (int round = 0; round < 3; round++)
        sum = fold(sum, primes());
    put_number("primes", primes());
    put_number("rounds", sum);
    leave(0);
}
