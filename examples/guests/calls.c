// Recursion, calls through tables of functions, and a switch.
#include "guest.h"

static u64 ackermann(u64 m, u64 n)
{
    if (m == 0)
        return n + 1;
    return n == 0 ? ackermann(m - 1, 1) : ackermann(m - 1, ackermann(m, n - 1));
}

static u64 is_odd(u64 n);

__attribute__((noinline)) static u64 is_even(u64 n)
{
    return n == 0 ? 1 : is_odd(n - 1);
}

__attribute__((noinline)) static u64 is_odd(u64 n)
{
    return n == 0 ? 0 : is_even(n - 1);
}

static u64 moves(int disks, int from, int to, u64 sum)
{
    if (disks == 0)
        return sum;
    sum = moves(disks - 1, from, 3 - from - to, sum);
    sum = fold(sum, (u64)(from * 3 + to));
    return moves(disks - 1, 3 - from - to, to, sum);
}

static u64 queens(u32 all, u32 columns, u32 left, u32 right)
{
    if (columns == all)
        return 1;
    u64 found = 0;
    for (u32 free = all & ~(columns | left | right); free; free &= free - 1) {
        u32 place = free & -free;
        found += queens(all, columns | place, (left | place) << 1, (right | place) >> 1);
    }
    return found;
}

static u64 sum_of(u64 a, u64 b) { return a + b; }
static u64 difference(u64 a, u64 b) { return a - b; }
static u64 product(u64 a, u64 b) { return a * b; }
static u64 quotient(u64 a, u64 b) { return a / b; }

typedef u64 (*operation)(u64, u64);
static const operation operations[] = {sum_of, difference, product, quotient};

// A small machine with a stack, run by a switch.
static u64 evaluate(const char *text)
{
    u64 stack[8];
    u64 *top = stack;
    for (; *text; text++) {
        switch (*text) {
        case '+': top--; top[-1] = operations[0](top[-1], top[0]); break;
        case '-': top--; top[-1] = operations[1](top[-1], top[0]); break;
        case '*': top--; top[-1] = operations[2](top[-1], top[0]); break;
        case '/': top--; top[-1] = operations[3](top[-1], top[0]); break;
        case ',': *top++ = 0; break;
        case ';': top[-1] = -top[-1]; break;
        case '!': top[-1] = ~top[-1]; break;
        default: top[-1] = top[-1] * 10 + (u64)(*text - '0'); break;
        }
    }
    return stack[0];
}

void _start(void)
{
    put_number("ackermann", ackermann(2, 6));
    put_number("even", is_even(301) * 2 + is_odd(301));
    put_number("moves", moves(8, 0, 2, 0));
    put_number("queens", queens(0x3f, 0, 0, 0));
    put_number("evaluate", evaluate(",12,34+,5*,7-,3/"));
    put_number("evaluate", evaluate(",1;!,99*,4;-"));
    leave(0);
}
