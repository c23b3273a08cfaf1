// Structs by value: given, answered, kept in a list and copied whole.
typedef unsigned long u64;

struct batch {
    short number;
    char kind;
    int weight;
    u64 parts[5];
};

void *memcpy(void *to, const void *from, u64 n)
{
    char *t = to;
    const char *f = from;
    while (n--)
        *t++ = *f++;
    return to;
}

static struct batch list[12], turned[12];

__attribute__((noinline)) static struct batch made(int number)
{
    struct batch b = { number, 'a' + number, number * number, { 0 } };
    for (int k = 0; k < 5; k++)
        b.parts[k] = number * 10 + k;
    return b;
}

__attribute__((noinline)) static u64 weighed(struct batch b, int times)
{
    u64 right = b.kind == 'a' + b.number;
    for (int k = 0; k < 5; k++)
        right &= b.parts[k] == (u64)b.number * 10 + k;
    return right ? (u64)b.weight * times : 0;
}

u64 compiled(void)
{
    u64 total = 0, count = 0;
    for (int k = 0; k < 12; k++)
        list[k] = made(k);
    for (int k = 0; k < 12; k++)
        turned[11 - k] = list[k];
    for (int k = 0; k < 12; k++) {
        struct batch b = turned[k];
        total += weighed(b, b.number + 1);
        count += b.number == 11 - k;
    }
    return total * 1000 + count;
}
