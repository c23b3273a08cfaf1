// The primes below 1,000 by trial, and a power modulo 99,991.
typedef unsigned long u64;

static int prime(int n)
{
    for (int d = 2; d * d <= n; d++)
        if (n % d == 0)
            return 0;
    return n > 1;
}

static u64 power(u64 x, u64 n, u64 modulus)
{
    u64 y = 1;
    for (; n; n >>= 1) {
        if (n & 1)
            y = y * x % modulus;
        x = x * x % modulus;
    }
    return y;
}

u64 compiled(void)
{
    int primes = 0;
    for (int n = 0; n < 1000; n++)
        primes += prime(n);
    return primes * 1000000ul + power(7, 1234, 99991);
}
