// Every instruction of the M extension over operands at the corners, division by 0 and overflow among them.
#include "guest.h"
#include "corners.h"

REGISTER_FORM(mul)
REGISTER_FORM(mulh)
REGISTER_FORM(mulhsu)
REGISTER_FORM(mulhu)
REGISTER_FORM(div)
REGISTER_FORM(divu)
REGISTER_FORM(rem)
REGISTER_FORM(remu)
REGISTER_FORM(mulw)
REGISTER_FORM(divw)
REGISTER_FORM(divuw)
REGISTER_FORM(remw)
REGISTER_FORM(remuw)

#define ONE(name, left, right) \
    { \
        u64 result; \
        asm volatile(#name " %0, %1, %2" : "=r"(result) : "r"(left), "r"(right)); \
        put_number(#name " " #left " " #right, result); \
    }

void _start(void)
{
    u64 least = 0x8000000000000000, least_word = 0x80000000, minus = -1ul, seven = 7, zero = 0;
    ONE(div, seven, zero)
    ONE(divu, seven, zero)
    ONE(rem, seven, zero)
    ONE(remu, minus, zero)
    ONE(div, least, minus)
    ONE(rem, least, minus)
    ONE(divw, least_word, zero)
    ONE(divuw, least_word, zero)
    ONE(remw, least_word, zero)
    ONE(remuw, least_word, zero)
    ONE(divw, least_word, minus)
    ONE(remw, least_word, minus)
    ONE(mulhsu, minus, minus)
    ONE(mulhsu, least, minus)
    ONE(mulh, least, least)
    ONE(mulhu, minus, minus)
    pairs_mul();
    pairs_mulh();
    pairs_mulhsu();
    pairs_mulhu();
    pairs_div();
    pairs_divu();
    pairs_rem();
    pairs_remu();
    pairs_mulw();
    pairs_divw();
    pairs_divuw();
    pairs_remw();
    pairs_remuw();
    leave(0);
}
