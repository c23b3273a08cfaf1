/* example: guest programs in sandboxes, as a controller runs them. Each result is printed as the sheet program
 * prints it. The second program makes a system call; the controller answers it and goes on. A third sandbox grants a
 * byte of its code for writing too, and its run is refused. In a fourth the program tries to widen what it was granted. The
 * fifth has several regions at once: a stack, a curve, and a shared table that it may only read. The sixth was assembled with
 * half-size words. At the end four guests run in turn over one memory, each as if it alone had run. */
#include "koubospar.h"

#include <inttypes.h>
#include <stdio.h>
#include <string.h>

#define LENGTH 65536

struct placed {
    uint64_t address;
    uint32_t word;
};

static void add(uint8_t *memory, const struct placed *words, size_t count)
{
    for (size_t i = 0; i < count; i++)
        for (int byte = 0; byte < 4; byte++)
            memory[words[i].address + byte] = (uint8_t)(words[i].word >> 8 * byte);
}

static void place(uint8_t *memory, const struct placed *words, size_t count)
{
    memset(memory, 0, LENGTH);
    add(memory, words, count);
}

static void grant(struct koubospar_machine *m, int number, uint64_t base, uint64_t bound, uint64_t permission)
{
    m->hfi.regions[number - 1] = (struct koubospar_region){.base = base, .bound = bound, .permission = permission};
}

/* A machine in locked HFI mode that hands exits to 100, with code from 0 on, as many bytes as the mask leaves. */
static struct koubospar_machine only_code(uint64_t code_mask)
{
    struct koubospar_machine m;
    memset(&m, 0, sizeof m);
    m.hfi.mode = 1;
    m.hfi.options = 5;
    m.hfi.handler = 0x100;
    grant(&m, KOUBOSPAR_CODE_0, 0, code_mask, 4);
    return m;
}

/* The same with 16 bytes of explicit data at 200, which it may read and write. */
static struct koubospar_machine sandbox(uint64_t code_mask)
{
    struct koubospar_machine m = only_code(code_mask);
    grant(&m, KOUBOSPAR_EXPLICIT_0, 0x200, 0x10, 3);
    return m;
}

/* Three kinds of data: a stack of 256 bytes that grows down from 1100; in its last 16, from 1000 on, a table that several
 * programs share, which region 2 lets this one only read, since it is asked before region 7; and a curve of 32 bytes at
 * 2000, for h-words alone. */
static struct koubospar_machine several(void)
{
    struct koubospar_machine m = only_code(0xffffffffffffff80);
    grant(&m, KOUBOSPAR_DATA_0, 0x1000, 0xfffffffffffffff0, 1);
    grant(&m, KOUBOSPAR_DATA_1, 0x1000, 0xffffffffffffff00, 3);
    grant(&m, KOUBOSPAR_EXPLICIT_1, 0x2000, 0x20, 3);
    return m;
}

/* "number (decimal), steps, pc, reason, exit pc, and the fault record's occurred, region, op, address; then each
 * non-zero register, rising, as number (decimal), value. All else is hexadecimal without leading zeros." */
static void print(struct koubospar_run_stop r, const struct koubospar_machine *m)
{
    const struct koubospar_fault *f = &m->hfi.fault;
    printf("%" PRIu64 ",%" PRIx64 ",%" PRIx64 ",%" PRIx64 ",%" PRIx64 ",%" PRIx64 ",%" PRIx64 ",%" PRIx64 ",%" PRIx64 "\n",
           r.stop, r.count, m->pc, m->hfi.reason, m->hfi.epc, f->occurred, f->region, f->op, f->address);
    for (int i = 0; i < 32; i++)
        if (m->x[i] != 0)
            printf("%d,%" PRIx64 "\n", i, m->x[i]);
}

/* document 01's whole example: c/exit.sheet */
static const struct placed leaving[] = {
    {0x0, 0x00500513}, /* addi x10, x0, 5 */
    {0x4, 0x00a001ab}, /* hsb x10, 3(x0): the byte 3 of region 1 */
    {0x8, 0x0400005b}, /* hfiexit */
};

/* c/call.sheet; what follows the call is in c/resumed.expected, since a sheet cannot resume */
static const struct placed calling[] = {
    {0x0, 0x00300293},  /* addi x5, x0, 3 */
    {0x4, 0x00e00513},  /* addi x10, x0, 14 */
    {0x8, 0x02550533},  /* mul x10, x10, x5 */
    {0xc, 0x00000073},  /* ecall */
    {0x10, 0x00a2802b}, /* hsb x10, 0(x5): the byte 3 of region 1, as x5 says */
    {0x14, 0x0030038b}, /* hlb x7, 3(x0): what was stored there */
    {0x18, 0x00300303}, /* lb x6, 3(x0): no implicit data region, so it is refused */
    {0x1c, 0x0400005b}, /* hfiexit */
};

/* c/widening.sheet */
static const struct placed widening[] = {
    {0x0, 0x00100293}, /* addi x5, x0, 1 */
    {0x4, 0x0602805b}, /* select region x5: regions are locked */
    {0x8, 0x0c02805b}, /* set bound x5: it never comes to this */
};

/* c/regions.sheet: the sum of products of table and curve */
static const struct placed summing[] = {
    {0x0, 0x00001137},  /* lui x2, 1 */
    {0x4, 0x10010113},  /* addi x2, x2, 256: the stack's end */
    {0x8, 0x00001437},  /* lui x8, 1: the table */
    {0xc, 0x00000493},  /* addi x9, x0, 0 */
    {0x10, 0x0004aa8b}, /* hlw x5, 0(x9): of region 4, as the top bit of rd's field says (21 for x5) */
    {0x14, 0x00940333}, /* add x6, x8, x9 */
    {0x18, 0x00032303}, /* lw x6, 0(x6): region 2 grants it */
    {0x1c, 0x026282b3}, /* mul x5, x5, x6 */
    {0x20, 0x00550533}, /* add x10, x10, x5 */
    {0x24, 0xff810113}, /* addi x2, x2, -8 */
    {0x28, 0x00a13023}, /* sd x10, 0(x2): region 7 grants it */
    {0x2c, 0x00448493}, /* addi x9, x9, 4 */
    {0x30, 0x0104a393}, /* slti x7, x9, 16 */
    {0x34, 0xfc039ee3}, /* bne x7, x0, -36 */
    {0x38, 0x01a0382b}, /* hsd x10, 16(x0): in region 4 (26 for x10) */
    {0x3c, 0x00042023}, /* sw x0, 0(x8): region 2 refuses it, though region 7 would grant it */
    {0x40, 0x0400005b}, /* hfiexit */
    {0x1000, 2}, {0x1004, 4}, {0x1008, 6}, {0x100c, 8}, /* the table */
    {0x2000, 3}, {0x2004, 5}, {0x2008, 7}, {0x200c, 9}, /* the curve */
};

/* c/half.sheet: 4 times the factorial of 5, as `as -march=rv64imc` lays it out; a half-word is half of a word placed here */
static const struct placed halves[] = {
    {0x0, 0x45954505},  /* c.li x10, 1; c.li x11, 5 */
    {0x4, 0x0533862e},  /* c.mv x12, x11; and mul x10, x10, x12, */
    {0x8, 0x15fd02c5},  /* which goes on here; c.addi x11, -1 */
    {0xc, 0x050afde5},  /* c.bnez x11, .-8, which is the c.mv; c.slli x10, 2 */
    {0x10, 0x0400005b}, /* hfiexit */
};

/* Four guests over one memory: c/turn-1.sheet to c/turn-4.sheet. */
static const struct placed first[] = {
    {0x1000, 0x00a00293}, /* addi x5, x0, 10 */
    {0x1004, 0x00550533}, /* add x10, x10, x5 */
    {0x1008, 0xfff28293}, /* addi x5, x5, -1 */
    {0x100c, 0xfe029ce3}, /* bne x5, x0, -8 */
    {0x1010, 0x0400005b}, /* hfiexit */
};

static const struct placed second[] = {
    {0x2000, 0x00800293}, /* addi x5, x0, 8 */
    {0x2004, 0x02528333}, /* mul x6, x5, x5 */
    {0x2008, 0x00838393}, /* addi x7, x7, 8 */
    {0x200c, 0xfe63bc2b}, /* hsd x6, -8(x7): a curve of its own in region 1 */
    {0x2010, 0xfff28293}, /* addi x5, x5, -1 */
    {0x2014, 0xfe0298e3}, /* bne x5, x0, -16 */
    {0x2018, 0x0400005b}, /* hfiexit */
};

static const struct placed third[] = {
    {0x3000, 0x00005437}, /* lui x8, 5: a table that it shares with the fourth */
    {0x3004, 0x00400493}, /* addi x9, x0, 4 */
    {0x3008, 0x00042303}, /* lw x6, 0(x8) */
    {0x300c, 0x00650533}, /* add x10, x10, x6 */
    {0x3010, 0x00440413}, /* addi x8, x8, 4 */
    {0x3014, 0xfff48493}, /* addi x9, x9, -1 */
    {0x3018, 0xfe0498e3}, /* bne x9, x0, -16 */
    {0x301c, 0x0400005b}, /* hfiexit */
    {0x5000, 3}, {0x5004, 5}, {0x5008, 7}, {0x500c, 11}, /* the table */
};

static const struct placed fourth[] = {
    {0x4000, 0x00005437}, /* lui x8, 5 */
    {0x4004, 0x00c42303}, /* lw x6, 12(x8) */
    {0x4008, 0x00128293}, /* addi x5, x5, 1 */
    {0x400c, 0x02628533}, /* mul x10, x5, x6 */
    {0x4010, 0x00a43023}, /* sd x10, 0(x8): the table is there to be read, so it is refused */
    {0x4014, 0x0400005b}, /* hfiexit: it never comes to this */
};

/* A guest with 32 bytes of code at `code` and, where `table` is set, the shared table to read. */
static struct koubospar_machine guest(uint64_t code, int table)
{
    struct koubospar_machine m = only_code(0xffffffffffffffe0);
    m.pc = code;
    m.hfi.regions[KOUBOSPAR_CODE_0 - 1].base = code;
    if (table)
        grant(&m, KOUBOSPAR_DATA_0, 0x5000, 0xfffffffffffffff0, 1);
    return m;
}

/* Turns of at most seven steps until all have stopped. What a guest came to is printed when it stops, with its steps in
 * all its turns. The third is put into its slot once more, and comes to the same. */
static void four_in_turn(uint8_t *memory)
{
    struct koubospar_machine m[KOUBOSPAR_SLOTS] = {guest(0x1000, 0), guest(0x2000, 0), guest(0x3000, 1), guest(0x4000, 1)};
    grant(&m[1], KOUBOSPAR_EXPLICIT_0, 0x2800, 0x40, 3);
    struct koubospar_scheduler s = {.count = KOUBOSPAR_SLOTS, .place = 1};
    for (uint64_t n = 1; n <= KOUBOSPAR_SLOTS; n++)
        koubospar_put(&s, n, &m[n - 1]);
    uint64_t steps[KOUBOSPAR_SLOTS + 1] = {0};
    int again = 1;
    for (;;) {
        struct koubospar_turn_stop t = koubospar_turn(&s, memory, LENGTH, 7);
        if (t.slot == 0)
            break; /* all have stopped: t.stop is 0, and no turn was refused */
        steps[t.slot] += t.count;
        if (t.stop == KOUBOSPAR_BUDGET_SPENT)
            continue;
        print((struct koubospar_run_stop){t.stop, steps[t.slot], t.address}, &s.slots[t.slot - 1].machine);
        if (t.slot == 3 && again) {
            again = 0;
            steps[3] = 0;
            koubospar_put(&s, 3, &m[2]);
        }
    }
}

int main(void)
{
    static uint8_t memory[LENGTH];

    place(memory, leaving, sizeof leaving / sizeof leaving[0]);
    struct koubospar_machine m = sandbox(0xfffffffffffffff0);
    struct koubospar_run_stop r = koubospar_run(&m, memory, sizeof memory, 10);
    print(r, &m);

    place(memory, calling, sizeof calling / sizeof calling[0]);
    m = sandbox(0xffffffffffffffe0);
    r = koubospar_run(&m, memory, sizeof memory, 10);
    print(r, &m);
    while (r.stop == KOUBOSPAR_SYSTEM_CALL) { /* the answer to the call is its operand and one more */
        koubospar_resume(&m, m.x[10] + 1);
        r = koubospar_run(&m, memory, sizeof memory, 10);
        print(r, &m);
    }

    m = sandbox(0xfffffffffffffff0);
    m.hfi.regions[KOUBOSPAR_EXPLICIT_0 - 1].base = 0xf; /* the last byte of the code: c/writable.sheet */
    r = koubospar_run(&m, memory, sizeof memory, 10);
    print(r, &m); /* KOUBOSPAR_WRITABLE_CODE */

    place(memory, widening, sizeof widening / sizeof widening[0]);
    m = sandbox(0xfffffffffffffff0);
    r = koubospar_run(&m, memory, sizeof memory, 10);
    print(r, &m); /* KOUBOSPAR_SETTING_FORBIDDEN, at the pc of the select */

    place(memory, summing, sizeof summing / sizeof summing[0]);
    m = several();
    r = koubospar_run(&m, memory, sizeof memory, 100);
    print(r, &m); /* KOUBOSPAR_DATA_REFUSED, by region 2 */

    place(memory, halves, sizeof halves / sizeof halves[0]);
    m = sandbox(0xffffffffffffffe0);
    r = koubospar_run(&m, memory, sizeof memory, 100);
    print(r, &m); /* KOUBOSPAR_LEFT */

    place(memory, first, sizeof first / sizeof first[0]);
    add(memory, second, sizeof second / sizeof second[0]);
    add(memory, third, sizeof third / sizeof third[0]);
    add(memory, fourth, sizeof fourth / sizeof fourth[0]);
    four_in_turn(memory);
    return 0;
}
