// The words of a text in the other order, by turning the whole and then each word; CRC-32 of it.
typedef unsigned long u64;
typedef unsigned u32;

static char text[] = "Half-words stand for long words, one each; no two answers.";

static u64 length(const char *s)
{
    const char *end = s;
    while (*end)
        end++;
    return end - s;
}

static void turn(char *from, char *to)
{
    while (from < --to) {
        char c = *from;
        *from++ = *to;
        *to = c;
    }
}

static char *found(char *s, char c)
{
    while (*s && *s != c)
        s++;
    return s;
}

u64 compiled(void)
{
    turn(text, text + length(text));
    for (char *word = text; *word;) {
        char *end = found(word, ' ');
        turn(word, end);
        word = *end ? end + 1 : end;
    }
    u32 c = ~0u;
    for (const char *s = text; *s; s++) {
        c ^= (unsigned char)*s;
        for (int bit = 0; bit < 8; bit++)
            c = c & 1 ? 0xedb88320u ^ (c >> 1) : c >> 1;
    }
    return (u32)~c;
}
