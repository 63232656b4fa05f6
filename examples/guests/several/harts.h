// What the guests of several harts share. Each hart enters at _start with its number, the number of harts and its argument.
#include "../guest.h"

static u64 arrived;

// Ends the hart; the last of them writes a number first.
__attribute__((noreturn, unused)) static void leave_last(u64 harts, const char *name, u64 *number)
{
    if (__atomic_fetch_add(&arrived, 1, __ATOMIC_SEQ_CST) + 1 == harts)
        put_number(name, __atomic_load_n(number, __ATOMIC_SEQ_CST));
    leave(0);
}
