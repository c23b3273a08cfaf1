// CRC-32 by a table that is made first, and bit by bit.
typedef unsigned long u64;
typedef unsigned u32;

static u32 table[256];

static u32 step(u32 c)
{
    for (int k = 0; k < 8; k++)
        c = c & 1 ? 0xedb88320u ^ (c >> 1) : c >> 1;
    return c;
}

static u32 by_table(const char *s)
{
    u32 c = ~0u;
    for (; *s; s++)
        c = table[(c ^ (unsigned char)*s) & 255] ^ (c >> 8);
    return ~c;
}

static u32 by_bits(const char *s)
{
    u32 c = ~0u;
    for (; *s; s++)
        c = step(c ^ (unsigned char)*s);
    return ~c;
}

u64 compiled(void)
{
    for (u32 n = 0; n < 256; n++)
        table[n] = step(n);
    return (u64)by_table("123456789") << 32 | by_bits("Half-words stand for long words, one each; no two answers.");
}
