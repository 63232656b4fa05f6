// Primes by a sieve, each hart with a table of its own: loads, stores and short blocks.
#include "../../examples/guests/guest.h"

#define LIMIT 15000
#define ROUNDS 17

static u8 tables[32][LIMIT];

static u64 primes(u8 *crossed)
{
    u64 found = 0;
    for (u64 i = 0; i < LIMIT; i++)
        crossed[i] = 0;
    for (u64 i = 2; i < LIMIT; i++) {
        if (crossed[i])
            continue;
        found++;
        for (u64 j = i * i; j < LIMIT; j += i)
            crossed[j] = 1;
    }
    return found;
}

void _start(u64 hart)
{
    u64 sum = 0;
    for (int round = 0; round < ROUNDS; round++)
        sum = fold(sum, primes(tables[hart % 32]));
    if (hart == 0)
        put_number("sum", sum);
    leave(0);
}
