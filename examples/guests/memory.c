// Loads and stores of every width, aligned and not, and over the end of a page.
#include "guest.h"

static u8 space[3 * 4096] __attribute__((aligned(4096)));

static void fill(u64 seed)
{
    for (u64 i = 4032; i < 4160; i++) {
        seed = seed * 6364136223846793005ul + 1442695040888963407ul;
        space[i] = (u8)(seed >> 56);
    }
}

static u64 sum_of_space(void)
{
    u64 sum = 0;
    for (u64 i = 4064; i < 4128; i++)
        sum = fold(sum, space[i]);
    return sum;
}

#define LOADS(name) \
    { \
        u64 sum = 0; \
        for (u64 i = 0; i < 32; i++) { \
            u64 result; \
            asm volatile(#name " %0, 0(%1)" : "=r"(result) : "r"(space + 4080 + i) : "memory"); \
            sum = fold(sum, result); \
            asm volatile(#name " %0, -2048(%1)" : "=r"(result) : "r"(space + 4080 + i + 2048) : "memory"); \
            sum = fold(sum, result); \
            asm volatile(#name " %0, 2047(%1)" : "=r"(result) : "r"(space + 4080 + i - 2047) : "memory"); \
            sum = fold(sum, result); \
        } \
        put_number(#name, sum); \
    }

#define STORES(name) \
    { \
        fill(7); \
        for (u64 i = 0; i < 32; i++) { \
            asm volatile(#name " %0, 0(%1)" : : "r"(0x8192a3b4c5d6e7f8 + i), "r"(space + 4080 + i) : "memory"); \
            asm volatile(#name " %0, -9(%1)" : : "r"(i * 0x0101010101010101), "r"(space + 4089 + i) : "memory"); \
        } \
        put_number(#name, sum_of_space()); \
        fill(8); \
        for (u64 i = 0; i < 32; i += 5) \
            asm volatile(#name " %0, 11(%1)" : : "r"(0x8192a3b4c5d6e7f8 - i), "r"(space + 4077 + i) : "memory"); \
        put_number(#name, sum_of_space()); \
    }

void _start(void)
{
    fill(1);
    LOADS(lb)
    LOADS(lbu)
    LOADS(lh)
    LOADS(lhu)
    LOADS(lw)
    LOADS(lwu)
    LOADS(ld)
    STORES(sb)
    STORES(sh)
    STORES(sw)
    STORES(sd)
    u64 lost;
    asm volatile("ld x0, 0(%1)\n mv %0, x0" : "=r"(lost) : "r"(space));
    put_number("zero", lost);
    leave(0);
}
