// Operands at the corners of 32 and 64 bits, and register instructions folded over all pairs of them.
static const u64 corners[] = {
    0, 1, 2, 31, 32, 63, -1ul, -2ul,
    0x7fffffff, 0x80000000, 0xffffffff, 0x100000000, 0xffffffff80000000,
    0x7fffffffffffffff, 0x8000000000000000, 0x8000000000000001, 0x0123456789abcdef, 0xfedcba9876543210,
};

#define REGISTER_FORM(name) \
    __attribute__((noinline)) static void pairs_##name(void) \
    { \
        u64 sum = 0; \
        for (u64 i = 0; i < COUNT(corners); i++) \
            for (u64 j = 0; j < COUNT(corners); j++) { \
                u64 result; \
                asm volatile(#name " %0, %1, %2" : "=r"(result) : "r"(corners[i]), "r"(corners[j])); \
                sum = fold(sum, result); \
            } \
        put_number(#name, sum); \
    }
