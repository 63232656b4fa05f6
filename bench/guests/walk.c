// Reads and writes all over 32 megabytes: bound by the memory of the machine that runs it.
#include "../../examples/guests/guest.h"

#define WORDS (4ul << 20)
#define ROUNDS 360000

static u64 words[WORDS];

void _start(u64 hart)
{
    u64 at = hart;
    u64 sum = 0;
    for (u64 round = 0; round < ROUNDS; round++) {
        at = (at * 6364136223846793005ul + 1442695040888963407ul) % WORDS;
        sum += words[at] ^ at;
        words[at] = round;
    }
    if (hart == 0)
        put_number("sum", sum);
    leave(0);
}
