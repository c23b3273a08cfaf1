// Seven queens, the towers of Hanoi with ten discs, and Ackermann's function of 2 and 3.
typedef unsigned long u64;

static int queens(int n, unsigned columns, unsigned left, unsigned right)
{
    unsigned all = (1u << n) - 1;
    if (columns == all)
        return 1;
    int count = 0;
    for (unsigned free = all & ~(columns | left | right); free; free &= free - 1) {
        unsigned bit = free & -free;
        count += queens(n, columns | bit, (left | bit) << 1, (right | bit) >> 1);
    }
    return count;
}

static u64 peg[3];

static u64 towers(int n, int from, int to)
{
    if (n == 0)
        return 0;
    u64 moves = towers(n - 1, from, 3 - from - to);
    peg[from] ^= 1ul << n;
    peg[to] ^= 1ul << n;
    return moves + 1 + towers(n - 1, 3 - from - to, to);
}

__attribute__((noinline)) static u64 ackermann(u64 m, u64 n)
{
    return m == 0 ? n + 1 : n == 0 ? ackermann(m - 1, 1) : ackermann(m - 1, ackermann(m, n - 1));
}

u64 compiled(void)
{
    peg[0] = 0x7fe;
    u64 moves = towers(10, 0, 2);
    if (peg[0] || peg[1] || peg[2] != 0x7fe)
        return 0;
    return queens(7, 0, 0, 0) * 1000000ul + moves * 100 + ackermann(2, 3);
}
