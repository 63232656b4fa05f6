/* A plain interpreter of static RV64IMA files, for comparison: one hart, no blocks, no counts, no events.
 *
 *     interpreter FILE [LIMIT]
 *
 * It fetches, decodes by a switch and executes one word after the other, with the services write, exit and exit_group. It prints the
 * guest's output, and its steps to the error stream. The status is 0 where the guest exits with 0, 1 where with another code, 8 at a
 * fault and 9 at the limit. */
#include <stdint.h>
#include <stdio.h>
#include <stdlib.h>
#include <string.h>

typedef struct Region {
    uint64_t base, size;
    uint8_t *bytes;
    int writable, executable;
} Region;

static Region regions[64];
static int count;
static uint64_t x[32], pc, steps, limit = 1000000;
static uint64_t reserved = 1, written;

static void stop(int status)
{
    fflush(stdout);
    fprintf(stderr, "steps %llu\n", (unsigned long long)steps);
    exit(status);
}

static void add(uint64_t base, uint64_t size, int flags)
{
    Region *r = &regions[count++];
    r->base = base;
    r->size = size;
    r->bytes = calloc(1, size + 8);
    r->writable = (flags & 2) != 0;
    r->executable = (flags & 1) != 0;
}

static void load(const char *name)
{
    FILE *f = fopen(name, "rb");
    if (!f)
        exit(3);
    static uint8_t file[1 << 26];
    size_t n = fread(file, 1, sizeof file, f);
    fclose(f);
    if (n < 64 || memcmp(file, "\177ELF", 4))
        exit(4);
    uint64_t phoff;
    uint16_t phnum;
    memcpy(&pc, file + 24, 8);
    memcpy(&phoff, file + 32, 8);
    memcpy(&phnum, file + 56, 2);
    for (int i = 0; i < phnum; i++) {
        uint8_t *p = file + phoff + 56 * i;
        uint32_t type, flags;
        uint64_t offset, base, in_file, in_memory;
        memcpy(&type, p, 4);
        memcpy(&flags, p + 4, 4);
        memcpy(&offset, p + 8, 8);
        memcpy(&base, p + 16, 8);
        memcpy(&in_file, p + 32, 8);
        memcpy(&in_memory, p + 40, 8);
        if (type != 1 || !in_memory)
            continue;
        add(base, in_memory, flags);
        memcpy(regions[count - 1].bytes, file + offset, in_file);
    }
    uint64_t stack = 0x4000000000 - 0x20000;
    add(stack, 65536, 6);
    x[2] = stack + 65536;
    x[11] = 1;
}

static Region *last_data, *last_code;

static inline uint8_t *find(uint64_t a, uint64_t n)
{
    Region *r = last_data;
    if (r && a - r->base < r->size && a - r->base + n <= r->size)
        return r->bytes + (a - r->base);
    for (int i = 0; i < count; i++) {
        r = &regions[i];
        if (a - r->base < r->size && a - r->base + n <= r->size) {
            last_data = r;
            return r->bytes + (a - r->base);
        }
    }
    return 0;
}

static inline uint8_t *at(uint64_t a, uint64_t n)
{
    uint8_t *p = find(a, n);
    if (!p)
        stop(8);
    return p;
}

static inline uint8_t *to(uint64_t a, uint64_t n)
{
    uint8_t *p = at(a, n);
    if (!last_data->writable)
        stop(8);
    return p;
}

static inline uint32_t fetch(void)
{
    Region *r = last_code;
    if (!(r && pc - r->base < r->size && pc - r->base + 4 <= r->size)) {
        for (int i = 0; i < count; i++)
            if (regions[i].executable && pc - regions[i].base < regions[i].size)
                r = last_code = &regions[i];
        if (!(r && pc - r->base < r->size && pc - r->base + 4 <= r->size))
            stop(8);
    }
    uint32_t w;
    memcpy(&w, r->bytes + (pc - r->base), 4);
    return w;
}

static void illegal(void)
{
    stop(8);
}

static uint64_t mulhu(uint64_t a, uint64_t b)
{
    return (uint64_t)(((unsigned __int128)a * b) >> 64);
}

static uint64_t divided(int f, uint64_t a, uint64_t b)
{
    int64_t sa = (int64_t)a, sb = (int64_t)b;
    switch (f) {
    case 4: return b == 0 ? ~0ull : (sa == INT64_MIN && sb == -1) ? a : (uint64_t)(sa / sb);
    case 5: return b == 0 ? ~0ull : a / b;
    case 6: return b == 0 ? a : (sa == INT64_MIN && sb == -1) ? 0 : (uint64_t)(sa % sb);
    default: return b == 0 ? a : a % b;
    }
}

static uint64_t divided_words(int f, uint32_t a, uint32_t b)
{
    int32_t sa = (int32_t)a, sb = (int32_t)b;
    switch (f) {
    case 4: return b == 0 ? ~0ull : (sa == INT32_MIN && sb == -1) ? (uint64_t)(int64_t)sa : (uint64_t)(int64_t)(sa / sb);
    case 5: return b == 0 ? ~0ull : (uint64_t)(int64_t)(int32_t)(a / b);
    case 6: return b == 0 ? (uint64_t)(int64_t)sa : (sa == INT32_MIN && sb == -1) ? 0 : (uint64_t)(int64_t)(sa % sb);
    default: return b == 0 ? (uint64_t)(int64_t)sa : (uint64_t)(int64_t)(int32_t)(a % b);
    }
}

static uint64_t atomic(int op, uint64_t old, uint64_t v, int wide)
{
    switch (op) {
    case 0: return old + v;
    case 1: return v;
    case 4: return old ^ v;
    case 8: return old | v;
    case 12: return old & v;
    case 16: return wide ? ((int64_t)old < (int64_t)v ? old : v) : ((int32_t)old < (int32_t)v ? old : v);
    case 20: return wide ? ((int64_t)old > (int64_t)v ? old : v) : ((int32_t)old > (int32_t)v ? old : v);
    case 24: return wide ? (old < v ? old : v) : ((uint32_t)old < (uint32_t)v ? old : v);
    case 28: return wide ? (old > v ? old : v) : ((uint32_t)old > (uint32_t)v ? old : v);
    default: illegal(); return 0;
    }
}

static uint64_t service(void)
{
    if (x[17] == 93 || x[17] == 94)
        stop((int32_t)x[10] ? 1 : 0);
    if (x[17] != 64)
        return (uint64_t)-38;
    if (x[10] != 1 && x[10] != 2)
        return (uint64_t)-9;
    uint64_t n = x[12] < 4096 ? x[12] : 4096;
    if (n && !find(x[11], n))
        return (uint64_t)-14;
    if (n && written + n > 1 << 24)
        return (uint64_t)-28;
    if (n)
        written += fwrite(find(x[11], n), 1, n, stdout);
    return n;
}

static void run(void)
{
    for (;;) {
        steps++;
        uint32_t w = fetch();
        int rd = w >> 7 & 31, f = w >> 12 & 7, rs1 = w >> 15 & 31, rs2 = w >> 20 & 31;
        uint64_t a = x[rs1], b = x[rs2], next = pc + 4, imm = (uint64_t)((int32_t)w >> 20), r = x[rd];
        switch (w & 127) {
        case 0x37: r = (uint64_t)(int32_t)(w & 0xFFFFF000); break;
        case 0x17: r = pc + (uint64_t)(int32_t)(w & 0xFFFFF000); break;
        case 0x6F: {
            int32_t o = ((int32_t)w >> 31 << 20) | (w & 0xFF000) | (w >> 20 & 1) << 11 | (w >> 21 & 1023) << 1;
            r = next;
            next = pc + (uint64_t)(int64_t)o;
            if (next & 3)
                stop(8);
            break;
        }
        case 0x67:
            r = next;
            next = (a + imm) & ~1ull;
            if (f || next & 3)
                stop(8);
            break;
        case 0x63: {
            int32_t o = ((int32_t)w >> 31 << 12) | (w >> 7 & 1) << 11 | (w >> 25 & 63) << 5 | (w >> 8 & 15) << 1;
            int t;
            switch (f) {
            case 0: t = a == b; break;
            case 1: t = a != b; break;
            case 4: t = (int64_t)a < (int64_t)b; break;
            case 5: t = (int64_t)a >= (int64_t)b; break;
            case 6: t = a < b; break;
            case 7: t = a >= b; break;
            default: illegal(); t = 0;
            }
            if (t) {
                next = pc + (uint64_t)(int64_t)o;
                if (next & 3)
                    stop(8);
            }
            rd = 0;
            break;
        }
        case 0x03: {
            uint64_t from = a + imm;
            uint8_t *p = at(from, 1u << (f & 3));
            switch (f) {
            case 0: r = (uint64_t)(int8_t)*p; break;
            case 1: { int16_t v; memcpy(&v, p, 2); r = (uint64_t)v; break; }
            case 2: { int32_t v; memcpy(&v, p, 4); r = (uint64_t)v; break; }
            case 3: memcpy(&r, p, 8); break;
            case 4: r = *p; break;
            case 5: { uint16_t v; memcpy(&v, p, 2); r = v; break; }
            case 6: { uint32_t v; memcpy(&v, p, 4); r = v; break; }
            default: illegal();
            }
            break;
        }
        case 0x23: {
            uint64_t o = (uint64_t)(int64_t)(int32_t)(((int32_t)w >> 25 << 5) | (w >> 7 & 31));
            if (f > 3)
                illegal();
            memcpy(to(a + o, 1u << f), &b, 1u << f);
            rd = 0;
            break;
        }
        case 0x13:
            switch (f) {
            case 0: r = a + imm; break;
            case 1: r = a << (imm & 63); break;
            case 2: r = (int64_t)a < (int64_t)imm; break;
            case 3: r = a < imm; break;
            case 4: r = a ^ imm; break;
            case 5: r = w >> 30 & 1 ? (uint64_t)((int64_t)a >> (imm & 63)) : a >> (imm & 63); break;
            case 6: r = a | imm; break;
            default: r = a & imm;
            }
            break;
        case 0x1B:
            switch (f) {
            case 0: r = (uint64_t)(int32_t)(a + imm); break;
            case 1: r = (uint64_t)(int32_t)((uint32_t)a << (imm & 31)); break;
            case 5: r = w >> 30 & 1 ? (uint64_t)((int32_t)a >> (imm & 31)) : (uint64_t)(int32_t)((uint32_t)a >> (imm & 31)); break;
            default: illegal();
            }
            break;
        case 0x33:
            if (w >> 25 == 1) {
                switch (f) {
                case 0: r = a * b; break;
                case 1: r = mulhu(a, b) - ((int64_t)a < 0 ? b : 0) - ((int64_t)b < 0 ? a : 0); break;
                case 2: r = mulhu(a, b) - ((int64_t)a < 0 ? b : 0); break;
                case 3: r = mulhu(a, b); break;
                default: r = divided(f, a, b);
                }
                break;
            }
            switch (f) {
            case 0: r = w >> 30 & 1 ? a - b : a + b; break;
            case 1: r = a << (b & 63); break;
            case 2: r = (int64_t)a < (int64_t)b; break;
            case 3: r = a < b; break;
            case 4: r = a ^ b; break;
            case 5: r = w >> 30 & 1 ? (uint64_t)((int64_t)a >> (b & 63)) : a >> (b & 63); break;
            case 6: r = a | b; break;
            default: r = a & b;
            }
            break;
        case 0x3B:
            if (w >> 25 == 1) {
                r = f == 0 ? (uint64_t)(int32_t)(a * b) : divided_words(f, (uint32_t)a, (uint32_t)b);
                break;
            }
            switch (f) {
            case 0: r = (uint64_t)(int32_t)(w >> 30 & 1 ? a - b : a + b); break;
            case 1: r = (uint64_t)(int32_t)((uint32_t)a << (b & 31)); break;
            case 5: r = w >> 30 & 1 ? (uint64_t)((int32_t)a >> (b & 31)) : (uint64_t)(int32_t)((uint32_t)a >> (b & 31)); break;
            default: illegal();
            }
            break;
        case 0x0F: rd = 0; break;
        case 0x2F: {
            int op = w >> 27, wide = f == 3;
            uint64_t n = wide ? 8 : 4;
            if ((f != 2 && f != 3) || a & (n - 1))
                stop(8);
            if (op == 2) {
                uint8_t *p = at(a, n);
                if (wide)
                    memcpy(&r, p, 8);
                else {
                    int32_t v;
                    memcpy(&v, p, 4);
                    r = (uint64_t)v;
                }
                reserved = a & ~7ull;
                break;
            }
            uint8_t *p = to(a, n);
            if (op == 3) {
                int good = reserved == (a & ~7ull);
                reserved = 1;
                if (good)
                    memcpy(p, &b, n);
                r = !good;
                break;
            }
            uint64_t old = 0, new;
            memcpy(&old, p, n);
            if (!wide)
                old = (uint64_t)(int32_t)old;
            new = atomic(op, old, wide ? b : (uint64_t)(int32_t)b, wide);
            memcpy(p, &new, n);
            r = old;
            break;
        }
        case 0x73:
            if (w != 0x73)
                stop(8);
            r = service();
            rd = 10;
            break;
        default: stop(8);
        }
        if (rd)
            x[rd] = r;
        pc = next;
        if (steps == limit)
            stop(9);
    }
}

int main(int n, char **words)
{
    if (n < 2)
        return 2;
    if (n > 2)
        limit = strtoull(words[2], 0, 10);
    load(words[1]);
    run();
}
