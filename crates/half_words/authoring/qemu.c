// Runs under qemu-riscv64, alone: for each half-word on standard input, and the long word that it is to stand for, makes one step of
// each from the same registers and memory and writes one byte: 'i' the half-word is illegal, '=' both end alike, '!' they do not.
// Alike is: the same signal, registers and data, and pc as far away from where it began, but that what comes after a
// half-word is 2 away and not 4, in pc and in the link.
typedef unsigned long u64;
typedef unsigned u32;
typedef unsigned short u16;

enum { SIGILL = 4, SIGTRAP = 5, READ = 63, WRITE = 64, EXIT = 93, SIGALTSTACK = 132, SIGACTION = 134, MPROTECT = 226 };
enum { HALF = 4096, SEED_COUNT = 4 };
enum { EBREAK = 0x9002 };

struct entry { u32 half; u32 word; };
struct end { u64 signal, pc, x[31]; };

extern u16 code[2 * HALF];
__asm__(".section .code,\"awx\",@nobits\n.balign 4096\ncode: .skip 16384\n.text");
static u64 data[1024] __attribute__((aligned(4096)));
static unsigned char alternate[65536] __attribute__((aligned(16)));
static u64 kept[32], start[32];
static struct end last;
static volatile int inside;

static long call(long n, long a, long b, long c, long d)
{
    register long a0 __asm__("a0") = a, a1 __asm__("a1") = b, a2 __asm__("a2") = c, a3 __asm__("a3") = d, a7 __asm__("a7") = n;
    __asm__ volatile("ecall" : "+r"(a0) : "r"(a1), "r"(a2), "r"(a3), "r"(a7) : "memory");
    return a0;
}

// The registers of the interrupted program stand 176 bytes into the context: pc, then x1 to x31.
static void handler(int signal, void *info, void *context)
{
    u64 *x = (u64 *)((char *)context + 176);
    if (!inside) {
        for (int k = 0; k < 32; k++) {
            kept[k] = x[k];
            x[k] = start[k];
        }
        kept[0] += 4;
        inside = 1;
        return;
    }
    last.signal = signal;
    last.pc = x[0] - start[0];
    for (int k = 1; k < 32; k++)
        last.x[k - 1] = x[k];
    for (int k = 0; k < 32; k++)
        x[k] = kept[k];
    inside = 0;
}

static u64 random_state;

static u64 random_number(void)
{
    random_state ^= random_state << 13;
    random_state ^= random_state >> 7;
    random_state ^= random_state << 17;
    return random_state;
}

// Even seeds point all registers into the data, odd ones have any numbers, some of them zero.
static u64 step(u32 word, int length, u64 seed, struct end *end)
{
    random_state = (seed + 1) * 0x9e3779b97f4a7c15;
    for (int k = 0; k < 1024; k++)
        data[k] = random_number();
    for (int k = 0; k < 2 * HALF; k++)
        code[k] = EBREAK;
    code[HALF] = word;
    if (length == 4)
        code[HALF + 1] = word >> 16;
    start[0] = (u64)&code[HALF];
    for (int k = 1; k < 32; k++) {
        u64 n = random_number();
        start[k] = seed % 2 == 0 ? (u64)&data[256 + n % 256] : n % 8 == 0 ? 0 : n >> (n >> 8) % 64;
        if (seed % 2 != 0 && start[k] >= 4096)
            start[k] |= 1ul << 40; // no address of this program
    }
    __asm__ volatile("fence rw,rw\n.word 0x00100073" ::: "memory");
    *end = last;
    u64 sum = 0;
    for (int k = 0; k < 1024; k++)
        sum = sum * 0x100000001b3 + data[k];
    return sum;
}

static char verdict(struct entry e)
{
    struct end half, word;
    for (u64 seed = 0; seed < SEED_COUNT; seed++) {
        u64 data_half = step(e.half, 2, seed, &half);
        if (half.signal == SIGILL && half.pc == 0)
            return 'i';
        u64 data_word = step(e.word, 4, seed, &word);
        int same = half.signal == word.signal && data_half == data_word;
        same &= half.pc == word.pc || (half.signal == SIGTRAP && half.pc == 2 && word.pc == 4);
        for (int k = 0; k < 31; k++)
            same &= half.x[k] == word.x[k] || (k == 0 && half.x[0] == start[0] + 2 && word.x[0] == start[0] + 4);
        if (!same)
            return '!';
    }
    return '=';
}

void run(void)
{
    struct { void *sp; int flags; u64 size; } stack = { alternate, 0, sizeof alternate };
    call(MPROTECT, (long)data, sizeof data, 3, 0); // a jump into the data ends there
    call(SIGALTSTACK, (long)&stack, 0, 0, 0);
    struct { void *handler; u64 flags; u64 mask; } action = { handler, 4 | 0x08000000, 0 };
    for (int signal = 4; signal <= 11; signal++)
        if (signal != 9)
            call(SIGACTION, signal, (long)&action, 0, 8);
    struct entry e;
    while (call(READ, 0, (long)&e, sizeof e, 0) == sizeof e) {
        char c = verdict(e);
        call(WRITE, 1, (long)&c, 1, 0);
    }
    call(EXIT, 0, 0, 0, 0);
}

__asm__(".globl _start\n_start: call run");
