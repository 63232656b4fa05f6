// Every branch over operands at the corners: a sum over which pairs are taken, and their number.
#include "guest.h"
#include "corners.h"

#define BRANCH(name) \
    __attribute__((noinline)) static void pairs_##name(void) \
    { \
        u64 sum = 0, number = 0; \
        for (u64 i = 0; i < COUNT(corners); i++) \
            for (u64 j = 0; j < COUNT(corners); j++) { \
                u64 taken; \
                asm volatile("li %0, 1\n " #name " %1, %2, 1f\n li %0, 0\n1:" \
                             : "=&r"(taken) : "r"(corners[i]), "r"(corners[j])); \
                sum = fold(sum, taken); \
                number += taken; \
            } \
        put_number(#name, sum); \
        put_number("taken", number); \
    }

BRANCH(beq)
BRANCH(bne)
BRANCH(blt)
BRANCH(bge)
BRANCH(bltu)
BRANCH(bgeu)

void _start(void)
{
    pairs_beq();
    pairs_bne();
    pairs_blt();
    pairs_bge();
    pairs_bltu();
    pairs_bgeu();
    leave(0);
}
