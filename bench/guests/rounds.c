// Work in registers alone, in straight blocks: what a hart can do by itself.
#include "../../examples/guests/guest.h"

#define ROUNDS 24000

#define QUARTER(a, b, c, d)            \
    a += b; d ^= a; d = d << 16 | d >> 48; \
    c += d; b ^= c; b = b << 12 | b >> 52; \
    a += b; d ^= a; d = d << 8 | d >> 56;  \
    c += d; b ^= c; b = b << 7 | b >> 57;

void _start(u64 hart)
{
    u64 a = hart, b = 0x9e3779b97f4a7c15ul, c = 0xbf58476d1ce4e5b9ul, d = 0x94d049bb133111ebul;
    for (int round = 0; round < ROUNDS; round++) {
        QUARTER(a, b, c, d)
        QUARTER(b, c, d, a)
        QUARTER(c, d, a, b)
        QUARTER(d, a, b, c)
        QUARTER(a, c, b, d)
        QUARTER(b, d, c, a)
        QUARTER(c, a, d, b)
        QUARTER(d, b, a, c)
    }
    if (hart == 0)
        put_number("sum", a ^ b ^ c ^ d);
    leave(0);
}
