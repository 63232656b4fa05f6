// Sorts bytes, words and structures: loads and stores of every width, shifts and comparisons.
struct entry {
    unsigned short key;
    signed char tag;
    unsigned int value;
    long sum;
};

static struct entry entries[32];
static unsigned char bytes[64];

static void leave(long code)
{
    register long a0 asm("a0") = code;
    register long a7 asm("a7") = 93;
    asm volatile("ecall" : : "r"(a0), "r"(a7));
    for (;;)
        ;
}

static unsigned int next(unsigned int *state)
{
    *state = *state * 1664525u + 1013904223u;
    return *state >> 8;
}

void _start(void)
{
    unsigned int state = 1;
    for (int i = 0; i < 32; i++) {
        entries[i].key = (unsigned short)next(&state);
        entries[i].tag = (signed char)next(&state);
        entries[i].value = next(&state) ^ (next(&state) << 3);
        entries[i].sum = (long)entries[i].tag * entries[i].value;
        bytes[i] = (unsigned char)(entries[i].sum >> 4);
    }
    for (int i = 1; i < 32; i++) {
        struct entry moved = entries[i];
        int at = i;
        while (at > 0 && entries[at - 1].key > moved.key) {
            entries[at] = entries[at - 1];
            at--;
        }
        entries[at] = moved;
    }
    int wrong = 0;
    for (int i = 1; i < 32; i++)
        wrong += entries[i - 1].key > entries[i].key || (bytes[i] & 0x80 && entries[i].sum == 0x7fffffffffffL);
    leave(wrong);
}
