// CRC-32 by a table made at start, and Adler-32, over the usual test text and over 4,000 bytes.
#include "guest.h"

static u32 table[256];
static u8 bytes[4000];

static u32 cyclic(const u8 *text, u64 length)
{
    u32 sum = ~0u;
    for (u64 i = 0; i < length; i++)
        sum = table[(sum ^ text[i]) & 255] ^ sum >> 8;
    return ~sum;
}

static u32 adler(const u8 *text, u64 length)
{
    u32 low = 1, high = 0;
    for (u64 i = 0; i < length; i++) {
        low = (low + text[i]) % 65521;
        high = (high + low) % 65521;
    }
    return high << 16 | low;
}

void _start(void)
{
    for (u32 i = 0; i < 256; i++) {
        u32 entry = i;
        for (int bit = 0; bit < 8; bit++)
            entry = entry & 1 ? 0xedb88320 ^ entry >> 1 : entry >> 1;
        table[i] = entry;
    }
    for (u64 i = 0; i < sizeof bytes; i++)
        bytes[i] = (u8)(i * i >> 3);
    put_number("crc32", cyclic((const u8 *)"123456789", 9));
    put_number("crc32", cyclic(bytes, sizeof bytes));
    put_number("adler32", adler((const u8 *)"123456789", 9));
    put_number("adler32", adler(bytes, sizeof bytes));
    leave(0);
}
