// Every atomic operation, W and D, over operands at the corners: sums over the old values and over the new ones.
#include "guest.h"
#include "corners.h"

static u64 cells[4] __attribute__((aligned(64)));

#define OPERATION(title, name) \
    __attribute__((noinline)) static void pairs_##title(void) \
    { \
        u64 old_sum = 0, new_sum = 0; \
        for (u64 i = 0; i < COUNT(corners); i++) \
            for (u64 j = 0; j < COUNT(corners); j += 2) { \
                u64 old; \
                cells[1] = corners[i]; \
                asm volatile(#name " %0, %1, (%2)" \
                             : "=r"(old) : "r"(corners[j + (i & 1)]), "r"(&cells[1]) : "memory"); \
                old_sum = fold(old_sum, old); \
                new_sum = fold(new_sum, cells[1]); \
            } \
        put_number(#name " old", old_sum); \
        put_number(#name " new", new_sum); \
    }

OPERATION(swap_word, amoswap.w)
OPERATION(add_word, amoadd.w.aq)
OPERATION(xor_word, amoxor.w.rl)
OPERATION(and_word, amoand.w.aqrl)
OPERATION(or_word, amoor.w)
OPERATION(min_word, amomin.w)
OPERATION(max_word, amomax.w)
OPERATION(minu_word, amominu.w)
OPERATION(maxu_word, amomaxu.w)
OPERATION(swap, amoswap.d.aqrl)
OPERATION(add, amoadd.d)
OPERATION(xor, amoxor.d)
OPERATION(and, amoand.d)
OPERATION(or, amoor.d.rl)
OPERATION(min, amomin.d.aq)
OPERATION(max, amomax.d)
OPERATION(minu, amominu.d)
OPERATION(maxu, amomaxu.d)

#define LOAD(width, place) \
    ({ \
        u64 result; \
        asm volatile("lr." #width " %0, (%1)" : "=r"(result) : "r"(place) : "memory"); \
        result; \
    })

#define STORE(width, place, number) \
    ({ \
        u64 result; \
        asm volatile("sc." #width " %0, %1, (%2)" : "=&r"(result) : "r"(number), "r"(place) : "memory"); \
        result; \
    })

static void conditional(void)
{
    u64 *place = &cells[0], *other = &cells[2];
    u32 *upper = (u32 *)place + 1;
    for (u64 i = 0; i < COUNT(corners); i++) {
        *place = corners[i];
        u64 sum = LOAD(d, place);
        sum = fold(sum, STORE(d, place, sum + 3));
        sum = fold(sum, *place);
        sum = fold(sum, LOAD(w, place));
        sum = fold(sum, STORE(w, place, sum));
        sum = fold(sum, *place);
        sum = fold(sum, LOAD(w, upper));
        sum = fold(sum, STORE(w, upper, sum));
        sum = fold(sum, *place);
        put_number("conditional", sum);
    }
    *place = 1;
    *other = 2;
    put_number("without", STORE(d, place, 5ul));
    LOAD(d, place);
    put_number("first", STORE(d, place, 6ul));
    put_number("second", STORE(d, place, 7ul));
    LOAD(w, place);
    put_number("other", STORE(w, other, 8ul));
    put_number("after", STORE(w, place, 9ul));
    LOAD(d, place);
    LOAD(d, other);
    put_number("earlier", STORE(d, place, 10ul));
    put_number("place", *place);
    put_number("other", *other);
}

// Adds by LR and SC loops and by AMOADD.
static void counters(void)
{
    cells[3] = 0;
    for (u64 i = 0; i < 100; i++) {
        u64 old;
        do
            old = LOAD(d, &cells[3]);
        while (STORE(d, &cells[3], old + i));
        asm volatile("amoadd.d x0, %0, (%1)" : : "r"(i), "r"(&cells[3]) : "memory");
        asm volatile("fence rw, rw" : : : "memory");
    }
    put_number("counters", cells[3]);
}

void _start(void)
{
    pairs_swap_word();
    pairs_add_word();
    pairs_xor_word();
    pairs_and_word();
    pairs_or_word();
    pairs_min_word();
    pairs_max_word();
    pairs_minu_word();
    pairs_maxu_word();
    pairs_swap();
    pairs_add();
    pairs_xor();
    pairs_and();
    pairs_or();
    pairs_min();
    pairs_max();
    pairs_minu();
    pairs_maxu();
    conditional();
    counters();
    leave(0);
}
