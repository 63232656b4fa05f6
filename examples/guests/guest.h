// What the freestanding guests share: services, and text of numbers.
typedef unsigned char u8;
typedef unsigned short u16;
typedef unsigned int u32;
typedef unsigned long u64;
typedef signed char i8;
typedef short i16;
typedef int i32;
typedef long i64;

#define COUNT(list) (sizeof(list) / sizeof((list)[0]))

static inline i64 service(i64 number, i64 first, i64 second, i64 third)
{
    register i64 a0 asm("a0") = first;
    register i64 a1 asm("a1") = second;
    register i64 a2 asm("a2") = third;
    register i64 a7 asm("a7") = number;
    asm volatile("ecall" : "+r"(a0) : "r"(a1), "r"(a2), "r"(a7) : "memory");
    return a0;
}

__attribute__((noreturn, unused)) static void leave(i64 code)
{
    for (;;)
        service(93, code, 0, 0);
}

// Writes a text of at most 4,096 bytes.
__attribute__((unused)) static void put(const char *text)
{
    u64 length = 0;
    while (text[length])
        length++;
    service(64, 1, (i64)text, (i64)length);
}

// Writes a name, and a number in 16 hexadecimal digits.
__attribute__((noinline, unused)) static void put_number(const char *name, u64 number)
{
    char line[64];
    u64 at = 0;
    while (*name)
        line[at++] = *name++;
    line[at++] = ' ';
    for (int shift = 60; shift >= 0; shift -= 4)
        line[at++] = "0123456789abcdef"[number >> shift & 15];
    line[at++] = '\n';
    service(64, 1, (i64)line, (i64)at);
}

// Takes a result into a sum in which its place counts.
static inline u64 fold(u64 sum, u64 result)
{
    return (sum << 9 | sum >> 55) + result;
}
