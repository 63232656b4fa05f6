// Counts primes by trial division: loops, branches, division and calls.
static int is_prime(long n)
{
    for (long d = 2; d * d <= n; d++)
        if (n % d == 0)
            return 0;
    return n > 1;
}

static void leave(long code)
{
    register long a0 asm("a0") = code;
    register long a7 asm("a7") = 93;
    asm volatile("ecall" : : "r"(a0), "r"(a7));
    for (;;)
        ;
}

void _start(void)
{
    long found = 0;
    for (long n = 0; n < 1000; n++)
        found += is_prime(n);
    leave(found == 168 ? 0 : 1);
}
