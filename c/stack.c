/* stack: how much stack each exported call uses. Each call is made on a stack of its own that is painted before it; the
 * deepest byte that has changed afterwards tells the bytes used, arguments and return address included. Every stop that a
 * call can answer is met. Ends with 1 if a call used more than the header says, or if a stop was not met. */
#include "koubospar.h"

#include <stdio.h>
#include <string.h>
#include <ucontext.h>

#define STACK (256 * 1024)
#define LONGEST 16777216

static uint8_t stack[STACK] __attribute__((aligned(64)));
static ucontext_t caller, callee;
static uint8_t *top; /* the stack pointer before the call */
static void (*action)(void);

static void on_the_stack(void)
{
    __asm__ volatile("mov %%rsp, %0" : "=m"(top));
    action();
}

static void make_the_call(void)
{
    getcontext(&callee);
    callee.uc_stack.ss_sp = stack;
    callee.uc_stack.ss_size = sizeof stack;
    callee.uc_link = &caller;
    makecontext(&callee, on_the_stack, 0);
    swapcontext(&caller, &callee);
}

/* The bytes that the action uses, as far as this paint shows them. Only the upper `depth` bytes are painted. */
static size_t used(int paint, size_t depth)
{
    uint8_t *painted = stack + STACK - depth;
    memset(painted, paint, depth);
    make_the_call();
    while (*painted == paint)
        painted++;
    return (size_t)(top - painted);
}

/* what the calls are made with, and what they answer */
static struct koubospar_machine before, m;
static uint8_t memory[LONGEST + 1];
static size_t length;
static uint64_t budget, place, read_back, written;
static struct koubospar_stop stop;
static struct koubospar_run_stop run_stop;
static uint32_t word;
static uint16_t half;
static struct koubospar_instruction instruction;
static struct koubospar_decoded decoded;
static struct koubospar_encoded encoded;
static uint8_t sheet[65537], output[KOUBOSPAR_MOST];
static struct koubospar_scheduler slots_before, slots;
static struct koubospar_turn_stop turn_stop;
static uint64_t number;
static bool done;

static void step(void) { m = before, stop = koubospar_step(&m, memory, length); }
static void run(void) { m = before, run_stop = koubospar_run(&m, memory, length, budget); }
static void resume(void) { m = before, stop = koubospar_resume(&m, budget); }
static void turn(void) { slots = slots_before, turn_stop = koubospar_turn(&slots, memory, length, budget); }
static void put(void) { slots = slots_before, done = koubospar_put(&slots, number, &before); }
static void respond(void) { written = koubospar_respond(sheet, length, output); }
static void decode(void) { decoded = koubospar_decode(word); }
static void encode(void) { encoded = koubospar_encode(instruction); }
static void expand(void) { decoded = koubospar_expand(half); }
static void probe(void) { m = koubospar_probe(); }
static void look(void) { read_back = koubospar_place(before, place); }

struct measured {
    const char *name;
    void (*action)(void);
    size_t said, most;
    uint64_t calls, stops, missed; /* bit n: stop n was met, was not met */
};

enum { STEP, RUN, RESUME, TURN, PUT, RESPOND, DECODE, ENCODE, EXPAND, PROBE, PLACE, CALLS };

static struct measured all[CALLS] = {
    {.name = "step", .action = step, .said = KOUBOSPAR_STACK_STEP},
    {.name = "run", .action = run, .said = KOUBOSPAR_STACK_RUN},
    {.name = "resume", .action = resume, .said = KOUBOSPAR_STACK_RESUME},
    {.name = "turn", .action = turn, .said = KOUBOSPAR_STACK_TURN},
    {.name = "put", .action = put, .said = KOUBOSPAR_STACK_PUT},
    {.name = "respond", .action = respond, .said = KOUBOSPAR_STACK_RESPOND},
    {.name = "decode", .action = decode, .said = KOUBOSPAR_STACK_DECODE},
    {.name = "encode", .action = encode, .said = KOUBOSPAR_STACK_ENCODE},
    {.name = "expand", .action = expand, .said = KOUBOSPAR_STACK_EXPAND},
    {.name = "probe", .action = probe, .said = KOUBOSPAR_STACK_PROBE},
    {.name = "place", .action = look, .said = KOUBOSPAR_STACK_PLACE},
};

static void measure(int n)
{
    action = all[n].action;
    for (int paint = 0x5a; paint <= 0xa5; paint += 0x4b) { /* a byte may happen to be written in the colour of one */
        size_t bytes = used(paint, n == RESPOND || n == TURN ? STACK : 16 * 1024);
        if (bytes > all[n].most)
            all[n].most = bytes;
    }
    all[n].calls++;
    if (n == STEP || n == RESUME)
        all[n].stops |= 1ull << stop.stop;
    if (n == RUN)
        all[n].stops |= 1ull << run_stop.stop;
    if (n == TURN)
        all[n].stops |= 1ull << turn_stop.stop;
}

static void region(int number, uint64_t base, uint64_t bound, uint64_t permission)
{
    before.hfi.regions[number - 1] = (struct koubospar_region){.base = base, .bound = bound, .permission = permission};
}

/* Regions that are asked before those that a program needs: data inside its data, data where it ends, others elsewhere. */
static void regions_before(void)
{
    region(KOUBOSPAR_EXPLICIT_0, 0x700, 0x10, 3);
    region(KOUBOSPAR_EXPLICIT_1, 0x710, 0x10, 3);
    region(KOUBOSPAR_EXPLICIT_2, 0x720, 0x10, 3);
    region(KOUBOSPAR_DATA_0, 0x410, ~3ull, 3);
    region(KOUBOSPAR_DATA_1, 0x500, ~0xffull, 1);
    region(KOUBOSPAR_DATA_2, 0x600, ~0xffull, 3);
    region(KOUBOSPAR_CODE_0, 0x300, ~0xffull, 4);
}

/* The numbers of the regions that a program needs: the first of their kinds, or the last where ten are in use. */
static int ten;
static int explicit_region(void) { return ten ? KOUBOSPAR_EXPLICIT_3 : KOUBOSPAR_EXPLICIT_0; }
static int data_region(void) { return ten ? KOUBOSPAR_DATA_3 : KOUBOSPAR_DATA_0; }
static int code_region(void) { return ten ? KOUBOSPAR_CODE_1 : KOUBOSPAR_CODE_0; }

/* A machine at pc 40 whose regions grant code below 100, ordinary data from 400 to 4ff, and 64 bytes from 7e0 on, of which
 * memory has the first 32. */
static void start(uint64_t mode, uint64_t options, uint32_t at_40)
{
    memset(&before, 0, sizeof before);
    before.pc = 0x40;
    before.hfi.mode = mode;
    before.hfi.options = options;
    before.hfi.selector = ten ? KOUBOSPAR_REGIONS : 1;
    if (ten)
        regions_before();
    region(explicit_region(), 0x7e0, 0x40, 3);
    region(data_region(), 0x400, ~0xffull, 3);
    region(code_region(), 0, ~0xffull, 4);
    for (int n = 1; n < 32; n++)
        before.x[n] = (uint64_t)n;
    memcpy(memory + 0x40, &at_40, 4); /* the host is little-endian */
    length = 0x800;
    budget = 3;
}

static void step_and_run(void)
{
    measure(STEP);
    measure(RUN);
}

/* What a word finds in x6: an HFI word's operand, or the address or the offset of data that is granted, granted in part,
 * absent, and nowhere. */
static uint64_t operand(uint32_t opcode, uint64_t d)
{
    static const uint64_t address[] = {0x410, 0x4fc, 0x7fc, 0xffffffffffffffff};
    static const uint64_t offset[] = {0x10, 0x3c, 0x1c, 0xffffffffffffffff};
    switch (opcode) {
    case 0x5b:
        return ten ? d + 8 : d + 1; /* up to 11, which is no region */
    case 0x0b:
    case 0x2b:
        return offset[d];
    default:
        return address[d];
    }
}

/* The word itself, or an h-word that chooses region 6 where ten regions are in use. */
static uint32_t choosing(uint32_t at_40)
{
    uint32_t opcode = at_40 % 128;
    return at_40 | (ten && opcode == 0x0b ? 1 << 19 | 1 << 11 : ten && opcode == 0x2b ? 1 << 19 | 1 << 24 : 0);
}

static void step_and_run_in_each_mode(uint32_t at_40)
{
    for (uint64_t mode = 0; mode < 2; mode++)
        for (uint64_t d = 0; d < 4; d++) {
            start(mode, d * 5, choosing(at_40));
            before.x[6] = operand(at_40 % 128, d);
            step_and_run();
        }
}

static void decode_and_encode(void)
{
    measure(DECODE);
    instruction = decoded.instruction;
    measure(ENCODE);
    instruction.imm ^= 1ull << 40;
    measure(ENCODE);
    instruction = decoded.instruction;
    instruction.region ^= 2; /* one that no h-word chooses, or one too many */
    measure(ENCODE);
}

/* Each opcode with each funct3 and the values of funct7 that mean something. An HFI or system word has few fields that may
 * be other than zero, and a division asks for its divisor, so these have several forms. */
static void words(void)
{
    static const uint32_t opcodes[] = {0x5b, 0x73, 0x33, 0x3b, 0x03, 0x0b, 0x0f, 0x13, 0x17,
                                       0x1b, 0x23, 0x2b, 0x37, 0x63, 0x67, 0x6f, 0};
    static const uint32_t fields[] = {6 << 15 | 5 << 7, 0, 5 << 7, 6 << 15, 8 << 20 | 6 << 15, 7 << 20 | 6 << 15};
    for (size_t o = 0; o < sizeof opcodes / sizeof opcodes[0]; o++)
        for (uint32_t funct = 0; funct < 8 * 16; funct++)
            for (size_t f = 0; f < (o < 4 ? 6 : 1); f++) {
                uint32_t funct7 = funct / 8 == 15 ? 0x20 : funct / 8;
                word = funct7 << 25 | (funct % 8) << 12 | fields[f] | opcodes[o];
                for (ten = 0; ten < 2; ten++)
                    step_and_run_in_each_mode(word);
                decode_and_encode();
            }
}

/* Half-words: each is expanded, and one of five is stepped over. */
static void half_words(void)
{
    for (uint32_t h = 0; h < 65536; h++) {
        half = (uint16_t)h;
        measure(EXPAND);
        if (h % 5 == 0) {
            start(1, 0, h);
            step_and_run();
        }
    }
}

/* The stops that the words above do not meet. */
static void stops(void)
{
    start(0, 0, 0x13);
    length = LONGEST + 1;
    step_and_run(); /* 1 */
    length = LONGEST;
    budget = 1000000;
    measure(RUN);
    budget = 1000001;
    measure(RUN); /* 2 */
    budget = 0;
    measure(RUN); /* 21 */
    measure(RESUME);
    before.pc = 0x41;
    budget = 3;
    step_and_run(); /* 10 */
    before.hfi.mode = 2;
    step_and_run(); /* 3 */
    measure(RESUME);
    start(1, 0, 0x13);
    region(code_region(), 0x100, ~0xffull, 4);
    step_and_run(); /* 11 */
    start(0, 0, 0x13);
    length = 0x42;
    step_and_run(); /* 12 */
    start(0, 0, 0x00100073);
    step_and_run(); /* 19 */
    start(1, 1, 0x13);
    region(data_region(), 0, ~0xffull, 3); /* where the code is */
    step_and_run(); /* 4 */
    start(0, 0, 0x0003005b); /* an enter by x6 */
    region(explicit_region(), 0xff, 0x40, 3); /* the code's last byte */
    before.x[6] = 1;
    step_and_run(); /* 22 */
    start(0, 0, 0x0000006f); /* a jump to itself */
    budget = 1000000;
    measure(RUN);
}

/* Four slots with the machine before, and whose turn it is. */
static void turn_of(uint64_t count, uint64_t at)
{
    slots_before = (struct koubospar_scheduler){.count = count, .place = at};
    for (int n = 0; n < KOUBOSPAR_SLOTS; n++)
        slots_before.slots[n].machine = before;
    measure(TURN);
}

/* Each refusal, each slot's turn, all slots stopped, and a run that stops for each reason that a locked guest can have. A turn
 * is a run, whose words are measured above. */
static void turns(void)
{
    static const uint32_t at_40[] = {0x13, 0x0000006f, 0, 0x73, 0x00100073, 0x0400005b, 0x0000005b, 0x0003305b, 0x00032283, 0x0062a023, 0x0003328b, 0x1400005b};
    for (size_t w = 0; w < sizeof at_40 / sizeof at_40[0]; w++)
        for (uint64_t at = 0; at < 6; at++) {
            start(1, 1 + 2 * (at % 4), choosing(at_40[w]));
            before.x[6] = at == 4 ? 0x1c : 0x410; /* the h-load then asks for bytes that memory lacks */
            budget = 100;
            turn_of(4, at);
            turn_of(at, 2);
        }
    start(1, 1, 0x0000006f);
    for (budget = 0; budget < 10002; budget += 10000 / 2)
        turn_of(4, 1);
    budget = 10001;
    turn_of(4, 1); /* 51 */
    budget = 3;
    length = LONGEST + 1;
    turn_of(4, 1); /* 1 */
    length = 0x42;
    before.pc = 0x42;
    turn_of(4, 1); /* 12 */
    start(1, 1, 0x13);
    before.pc = 0x41;
    turn_of(4, 4); /* 10 */
    before.pc = 0x800;
    turn_of(4, 3); /* 11 */
    start(1, 1, 0x13);
    region(explicit_region(), 0xff, 0x40, 3);
    turn_of(4, 1); /* 4 */
    start(0, 1, 0x13);
    turn_of(4, 1); /* 52 */
    before.hfi.mode = 2;
    turn_of(4, 1); /* 3 */
    for (int n = 0; n < KOUBOSPAR_SLOTS; n++)
        slots_before.slots[n].stop = 20;
    measure(TURN); /* 0 */
    for (number = 0; number < 6; number++)
        measure(PUT);
}

static void sheet_of(const char *text)
{
    length = strlen(text);
    memcpy(sheet, text, length);
    measure(RESPOND);
}

/* A result, one with ten regions, a refused run, each refusal of a sheet, an empty budget, a run of 1,000,000 steps, and the
 * longest sheet with all registers set. */
static void sheets(void)
{
    sheet_of("0,5,100,0,0,0,100,fffffffffffffff0,3,0,fffffffffffffff0,4,0,0,0,0,0,0,200,10,3,0,0,0,0,0,0,0,0,0,0,0,0,a\n"
             "0,00500513\n4,01a801ab\n8,0400005b\n");
    sheet_of("0,5,100,200,10,3,0,0,0,0,fffffffffffffff0,4,0,0,0,0,0,0,0,0,0,0,0,0,0,0,0,0,0,0,0,0,a\n");
    sheet_of("0,5,100,200,10,3,0,0,0,0,fffffffffffffff0,4,a\n0,00500513\n4,00a001ab\n8,0400005b\n");
    sheet_of("0,5,100,3,1,3,0,0,0,0,fffffffffffffff0,4,a\n");
    sheet_of("");
    sheet_of("0,g\n");
    sheet_of("0,5\n");
    sheet_of("0,5,,200,10,3,0,0,0,0,fffffffffffffff0,4,a\n");
    sheet_of("0,5,100,200,10,300,0,0,0,0,fffffffffffffff0,4,a\n");
    sheet_of("0,5,100,200,10,3,0,0,0,0,fffffffffffffff0,4,a\n4,0\n4,0\n");
    sheet_of("0,0,0,0,0,0,0,0,0,0,ffffffffffff0000,4,\n0,0000006f\n");
    sheet_of("0,0,0,0,0,0,0,0,0,0,ffffffffffff0000,4,f4240\n0,0000006f\n");
    char *at = (char *)sheet + sprintf((char *)sheet, "0,0,0,0,0,0,0,0,0,0,ffffffffffff0000,4,f4240\n");
    for (unsigned n = 0; (uint8_t *)at + 14 < sheet + 65536; n++)
        at += sprintf(at, "%04x,%08x\n", 4 * n, 0xfff00013 | (1 + n % 31) << 7);
    length = (size_t)((uint8_t *)at - sheet);
    measure(RESPOND);
}

int main(void)
{
    words();
    half_words();
    for (ten = 0; ten < 2; ten++)
        stops();
    for (ten = 0; ten < 2; ten++)
        turns();
    sheets();
    measure(PROBE);
    for (place = 0; place < 80; place++)
        measure(PLACE);
    all[STEP].missed = 0x3cffc1b & ~all[STEP].stops; /* 0, 1, 3, 4, 10 to 19, 22 to 25 */
    all[RUN].missed = 0x3fffc1e & ~all[RUN].stops;   /* 1 to 4, 10 to 25 */
    all[RESUME].missed = 0x9 & ~all[RESUME].stops;   /* 0 and 3 */
    /* 0, 1, 3, 4, 10 to 13, 16 to 21, 23, 25, 50 to 52: a locked guest has no other */
    all[TURN].missed = 0x1c000002bf3c1bull & ~all[TURN].stops;
    int failed = 0;
    for (int n = 0; n < CALLS; n++) {
        int bad = all[n].most > all[n].said || all[n].missed != 0;
        for (int i = 0; i < 64; i++)
            if (all[n].missed >> i & 1)
                printf("FAILED: %s did not meet stop %d\n", all[n].name, i);
        printf("%s%s: %zu bytes of stack at most in %llu calls, the header says %zu\n", bad ? "FAILED: " : "", all[n].name,
               all[n].most, (unsigned long long)all[n].calls, all[n].said);
        failed |= bad;
    }
    return failed;
}
