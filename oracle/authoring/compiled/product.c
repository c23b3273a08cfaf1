// 40 factorial as 32-bit limbs, then in decimal: its first 18 digits.
typedef unsigned long u64;
typedef unsigned u32;

struct big {
    int length;
    u32 limb[8];
};

static void multiply(struct big *b, u32 n)
{
    u64 carry = 0;
    for (int k = 0; k < b->length; k++) {
        carry += (u64)b->limb[k] * n;
        b->limb[k] = carry;
        carry >>= 32;
    }
    if (carry)
        b->limb[b->length++] = carry;
}

static u32 divide(struct big *b, u32 n)
{
    u64 rest = 0;
    for (int k = b->length - 1; k >= 0; k--) {
        rest = rest << 32 | b->limb[k];
        b->limb[k] = rest / n;
        rest %= n;
    }
    while (b->length && !b->limb[b->length - 1])
        b->length--;
    return rest;
}

static char digits[64];

u64 compiled(void)
{
    struct big b = { 1, { 1 } };
    for (u32 n = 2; n <= 40; n++)
        multiply(&b, n);
    int count = 0;
    while (b.length)
        digits[count++] = divide(&b, 10);
    u64 first = 0;
    for (int k = 0; k < 18; k++)
        first = first * 10 + digits[--count];
    return first;
}
