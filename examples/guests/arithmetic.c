// Every arithmetic instruction of RV64I over operands at the corners, a line with a sum for each.
#include "guest.h"
#include "corners.h"

#define IMMEDIATE(name, number) \
    { \
        u64 result; \
        asm volatile(#name " %0, %1, " #number : "=r"(result) : "r"(corners[i])); \
        sum = fold(sum, result); \
    }

#define FIVE(name, first, second, third, fourth, fifth) \
    __attribute__((noinline)) static void numbers_##name(void) \
    { \
        u64 sum = 0; \
        for (u64 i = 0; i < COUNT(corners); i++) { \
            IMMEDIATE(name, first) IMMEDIATE(name, second) IMMEDIATE(name, third) \
            IMMEDIATE(name, fourth) IMMEDIATE(name, fifth) \
        } \
        put_number(#name, sum); \
    }

#define UPPER(number) \
    { \
        u64 result, here, upper; \
        asm volatile("lui %0, " #number : "=r"(result)); \
        sum = fold(sum, result); \
        asm volatile("auipc %0, 0\n auipc %1, " #number : "=r"(here), "=r"(upper)); \
        sum = fold(sum, upper - here); \
    }

REGISTER_FORM(add)
REGISTER_FORM(sub)
REGISTER_FORM(sll)
REGISTER_FORM(slt)
REGISTER_FORM(sltu)
REGISTER_FORM(xor)
REGISTER_FORM(srl)
REGISTER_FORM(sra)
REGISTER_FORM(or)
REGISTER_FORM(and)
REGISTER_FORM(addw)
REGISTER_FORM(subw)
REGISTER_FORM(sllw)
REGISTER_FORM(srlw)
REGISTER_FORM(sraw)
FIVE(addi, -2048, -1, 0, 1, 2047)
FIVE(slti, -2048, -1, 0, 1, 2047)
FIVE(sltiu, -2048, -1, 0, 1, 2047)
FIVE(xori, -2048, -1, 0, 1, 2047)
FIVE(ori, -2048, -1, 0, 1, 2047)
FIVE(andi, -2048, -1, 0, 1, 2047)
FIVE(addiw, -2048, -1, 0, 1, 2047)
FIVE(slli, 0, 1, 31, 32, 63)
FIVE(srli, 0, 1, 31, 32, 63)
FIVE(srai, 0, 1, 31, 32, 63)
FIVE(slliw, 0, 1, 15, 30, 31)
FIVE(srliw, 0, 1, 15, 30, 31)
FIVE(sraiw, 0, 1, 15, 30, 31)

static void upper(void)
{
    u64 sum = 0;
    UPPER(0) UPPER(1) UPPER(0x7ffff) UPPER(0x80000) UPPER(0xfffff)
    put_number("upper", sum);
}

// A write to x0 is lost.
static void zero(void)
{
    u64 result;
    asm volatile("addi x0, %1, 5\n add x0, %1, %1\n lui x0, 5\n addi %0, x0, 0" : "=r"(result) : "r"(7ul));
    put_number("zero", result);
}

void _start(void)
{
    pairs_add();
    pairs_sub();
    pairs_sll();
    pairs_slt();
    pairs_sltu();
    pairs_xor();
    pairs_srl();
    pairs_sra();
    pairs_or();
    pairs_and();
    pairs_addw();
    pairs_subw();
    pairs_sllw();
    pairs_srlw();
    pairs_sraw();
    numbers_addi();
    numbers_slti();
    numbers_sltiu();
    numbers_xori();
    numbers_ori();
    numbers_andi();
    numbers_addiw();
    numbers_slli();
    numbers_srli();
    numbers_srai();
    numbers_slliw();
    numbers_srliw();
    numbers_sraiw();
    upper();
    zero();
    leave(0);
}
