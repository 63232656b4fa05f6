// Shifts, sums, products, a small table and branches that no one can foresee.
#include "../../examples/guests/guest.h"

#define SLOTS 256
#define ROUNDS 215000

static u64 tables[32][SLOTS];

void _start(u64 hart)
{
    u64 *table = tables[hart % 32];
    u64 state = 88172645463325252ul;
    u64 sum = 0;
    for (u64 i = 0; i < SLOTS; i++)
        table[i] = i * 0x9e3779b97f4a7c15ul;
    for (int round = 0; round < ROUNDS; round++) {
        state ^= state << 13;
        state ^= state >> 7;
        state ^= state << 17;
        u64 *slot = &table[state % SLOTS];
        sum += *slot;
        *slot = sum ^ state;
        if (sum & 1)
            sum = sum * 3 + 1;
    }
    if (hart == 0)
        put_number("sum", sum);
    leave(0);
}
