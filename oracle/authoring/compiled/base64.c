// Base64 of a text, and back; CRC-32 of what it is written as, or 0 if it does not come back.
typedef unsigned long u64;
typedef unsigned u32;
typedef unsigned char u8;

static const char text[] = "Half-words stand for long words, one each; no two answers.";
static const char sign[] = "ABCDEFGHIJKLMNOPQRSTUVWXYZabcdefghijklmnopqrstuvwxyz0123456789+/";
static char written[100];
static u8 back[80];

static int encode(const u8 *from, int n, char *to)
{
    char *start = to;
    for (; n > 0; n -= 3, from += 3) {
        u32 three = from[0] << 16 | (n > 1 ? from[1] : 0) << 8 | (n > 2 ? from[2] : 0);
        *to++ = sign[three >> 18];
        *to++ = sign[three >> 12 & 63];
        *to++ = n > 1 ? sign[three >> 6 & 63] : '=';
        *to++ = n > 2 ? sign[three & 63] : '=';
    }
    return to - start;
}

static int value(char c)
{
    if (c >= 'A' && c <= 'Z')
        return c - 'A';
    if (c >= 'a' && c <= 'z')
        return c - 'a' + 26;
    if (c >= '0' && c <= '9')
        return c - '0' + 52;
    return c == '+' ? 62 : c == '/' ? 63 : -1;
}

static int decode(const char *from, int n, u8 *to)
{
    u8 *start = to;
    u32 bits = 0;
    int held = 0;
    for (int k = 0; k < n && from[k] != '='; k++) {
        bits = bits << 6 | value(from[k]);
        held += 6;
        if (held >= 8) {
            held -= 8;
            *to++ = bits >> held;
        }
    }
    return to - start;
}

u64 compiled(void)
{
    int n = encode((const u8 *)text, sizeof text - 1, written);
    if (decode(written, n, back) != sizeof text - 1)
        return 0;
    for (u32 k = 0; k < sizeof text - 1; k++)
        if (back[k] != (u8)text[k])
            return 0;
    u32 c = ~0u;
    for (int k = 0; k < n; k++) {
        c ^= (u8)written[k];
        for (int bit = 0; bit < 8; bit++)
            c = c & 1 ? 0xedb88320u ^ (c >> 1) : c >> 1;
    }
    return (u32)~c;
}
