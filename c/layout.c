/* layout: holds the header's declarations against what the library reads and writes, in every field. */
#include "koubospar.h"

#include <stdio.h>
#include <string.h>

static int failed;

static void is(const char *what, uint64_t got, uint64_t expected)
{
    if (got != expected) {
        printf("FAILED: %s is %llu, not %llu\n", what, (unsigned long long)got, (unsigned long long)expected);
        failed = 1;
    }
}
#define IS(e, v) is(#e, (e), (v))

/* the fields of a machine by their names, in the order of their places; x stands for its first and last */
#define BEFORE 9
#define AFTER 4
#define PLACES (BEFORE + 3 * KOUBOSPAR_REGIONS + AFTER)

static uint64_t place_of(int n)
{
    return n == 0 ? 0 : 30 + (uint64_t)n; /* x1 to x30 are left out */
}

static uint64_t *of_region(struct koubospar_region *r, int n)
{
    uint64_t *all[3] = {&r->base, &r->bound, &r->permission};
    return all[n];
}

static uint64_t *named(struct koubospar_machine *m, int n)
{
    struct koubospar_hfi *h = &m->hfi;
    uint64_t *before[BEFORE] = {&m->x[0], &m->x[31],   &m->pc,      &h->mode,    &h->reason,
                                &h->epc,  &h->options, &h->handler, &h->selector};
    uint64_t *after[AFTER] = {&h->fault.occurred, &h->fault.region, &h->fault.op, &h->fault.address};
    if (n < BEFORE)
        return before[n];
    if (n >= PLACES - AFTER)
        return after[n - (PLACES - AFTER)];
    return of_region(&h->regions[(n - BEFORE) / 3], (n - BEFORE) % 3);
}

static void machine(void)
{
    struct koubospar_machine m;
    memset(&m, 0xee, sizeof m);
    m = koubospar_probe();
    for (int n = 0; n < PLACES; n++)
        is("a field of the probe", *named(&m, n), 1000 + place_of(n));
    for (int i = 1; i < 31; i++)
        is("a register of the probe", m.x[i], 0);
    for (int n = 0; n < PLACES; n++) { /* one field at a time, all others different from it */
        memset(&m, 0xee, sizeof m);
        *named(&m, n) = 77 + (uint64_t)n;
        for (int k = 0; k < PLACES; k++)
            is("a field that the library reads", koubospar_place(m, place_of(k)),
               k == n ? 77 + (uint64_t)n : 0xeeeeeeeeeeeeeeee);
    }
    IS(place_of(PLACES - 1), 72); /* the last of 73 */
    IS(koubospar_place(m, 73), 0);
}

/* x1 to x30, and the order of the answers' fields */
static void calls(void)
{
    uint8_t memory[8] = {0, 0, 0, 0, 0x13, 0, 0, 0}; /* at 4: addi x0, x0, 0 */
    struct koubospar_machine m;
    for (unsigned i = 1; i < 32; i++) {
        memset(&m, 0, sizeof m);
        m.x[i] = 5;
        uint32_t word = 0x00100013 | i << 7 | i << 15; /* addi xi, xi, 1 */
        memcpy(memory, &word, 4); /* the host is little-endian */
        struct koubospar_stop s = koubospar_step(&m, memory, sizeof memory);
        IS(s.stop, 0);
        IS(m.x[i], 6);
        IS(m.pc, 4);
    }
    memset(&m, 0, sizeof m);
    struct koubospar_run_stop r = koubospar_run(&m, memory, sizeof memory, 100);
    IS(r.stop, 12);
    IS(r.count, 2);
    IS(r.address, 8);
    struct koubospar_stop s = koubospar_step(&m, memory, sizeof memory);
    IS(s.stop, 12);
    IS(s.address, 8);
    s = koubospar_resume(&m, 99);
    IS(s.stop, 0);
    IS(m.x[10], 99);
    IS(m.pc, 12);
    r = koubospar_run(&m, NULL, 0, 100); /* no memory at all */
    IS(r.stop, 12);
    IS(r.address, 12);
    m.hfi.mode = 2;
    IS(koubospar_run(&m, memory, sizeof memory, 100).stop, 3);
    IS(koubospar_step(&m, memory, sizeof memory).stop, 3);
    IS(koubospar_resume(&m, 1).stop, 3);
    IS(m.x[10], 99);
    IS(koubospar_run(&m, memory, sizeof memory, 1000001).stop, 2);
}

/* A guest in locked HFI mode that counts in x5, two words at 0 over and over. */
static struct koubospar_machine counting(uint64_t pc)
{
    struct koubospar_machine m;
    memset(&m, 0, sizeof m);
    m.pc = pc;
    m.hfi.mode = 1;
    m.hfi.options = 1;
    m.hfi.regions[KOUBOSPAR_CODE_0 - 1] = (struct koubospar_region){0, ~0xfull, 4};
    return m;
}

static void turn(struct koubospar_turn_stop t, uint64_t slot, uint64_t stop, uint64_t count, uint64_t address)
{
    is("the slot of a turn", t.slot, slot);
    is("the stop of a turn", t.stop, stop);
    is("the count of a turn", t.count, count);
    is("the address of a turn", t.address, address);
}

/* several machines in turn: each field of the record, and the order of the answer's */
static void turns(void)
{
    uint8_t memory[8] = {0x93, 0x82, 0x12, 0, 0x6f, 0xf0, 0xdf, 0xff}; /* addi x5, x5, 1; jal x0, -4 */
    struct koubospar_scheduler s, before;
    struct koubospar_machine m = counting(0), last = counting(8);
    memset(&s, 0, sizeof s);
    turn(koubospar_turn(&s, memory, sizeof memory, 3), 0, KOUBOSPAR_SLOT_COUNT, 0, 0);
    s.count = 3;
    turn(koubospar_turn(&s, memory, sizeof memory, 0), 0, KOUBOSPAR_ALLOWANCE_RANGE, 0, 0);
    turn(koubospar_turn(&s, memory, sizeof memory, KOUBOSPAR_LARGEST_ALLOWANCE + 1), 0, KOUBOSPAR_ALLOWANCE_RANGE, 0, 0);
    turn(koubospar_turn(&s, memory, sizeof memory, 3), 0, KOUBOSPAR_NOT_LOCKED, 0, 0);
    memset(&s.slots[3], 0xee, sizeof s.slots[3]);
    for (uint64_t n = 1; n <= KOUBOSPAR_SLOTS; n++) {
        m.x[n] = 70 + n;
        s.slots[n - 1].stop = 20;
        IS(koubospar_put(&s, n, &m), 1);
        IS(memcmp(&s.slots[n - 1].machine, &m, sizeof m), 0);
        IS(s.slots[n - 1].stop, 0);
    }
    before = s;
    IS(koubospar_put(&s, 0, &last), 0);
    IS(koubospar_put(&s, KOUBOSPAR_SLOTS + 1, &last), 0);
    IS(memcmp(&before, &s, sizeof s), 0);
    s.total = 5;
    s.slots[1].stop = KOUBOSPAR_SYSTEM_CALL;
    turn(koubospar_turn(&s, memory, sizeof memory, 3), 1, KOUBOSPAR_BUDGET_SPENT, 3, 0);
    IS(s.slots[0].stop, KOUBOSPAR_BUDGET_SPENT);
    IS(s.slots[0].machine.x[1], 71);
    IS(s.slots[0].machine.x[5], 2);
    IS(s.slots[0].machine.pc, 4);
    IS(s.count, 3);
    IS(s.place, 2);
    IS(s.total, 8);
    IS(memcmp(&before.slots[2], &s.slots[2], 2 * sizeof s.slots[2]), 0);
    turn(koubospar_turn(&s, memory, sizeof memory, KOUBOSPAR_LARGEST_ALLOWANCE), 3, KOUBOSPAR_BUDGET_SPENT, 10000, 0);
    IS(s.place, 1);
    IS(s.total, 10008);
    koubospar_put(&s, 2, &last);
    s.place = 2;
    turn(koubospar_turn(&s, memory, sizeof memory, 1), 2, KOUBOSPAR_FETCH_ABSENT, 0, 8);
    IS(s.slots[1].stop, KOUBOSPAR_FETCH_ABSENT);
    s.slots[0].stop = s.slots[2].stop = KOUBOSPAR_LEFT;
    before = s;
    turn(koubospar_turn(&s, memory, sizeof memory, 1), 0, 0, 0, 0);
    IS(memcmp(&before, &s, sizeof s), 0);
}

static void instruction(uint32_t word, struct koubospar_instruction expected)
{
    struct koubospar_decoded d = koubospar_decode(word);
    IS(d.number, 0);
    IS(d.instruction.group, expected.group);
    IS(d.instruction.kind, expected.kind);
    IS(d.instruction.rd, expected.rd);
    IS(d.instruction.rs1, expected.rs1);
    IS(d.instruction.rs2, expected.rs2);
    IS(d.instruction.imm, expected.imm);
    IS(d.instruction.fm, expected.fm);
    IS(d.instruction.pred, expected.pred);
    IS(d.instruction.succ, expected.succ);
    IS(d.instruction.region, expected.region);
    struct koubospar_encoded e = koubospar_encode(expected);
    IS(e.number, 0);
    IS(e.word, word);
    /* a field more than the group has, and a group that there is not */
    struct koubospar_instruction wrong = expected;
    wrong.group = 18;
    IS(koubospar_encode(wrong).number, 5);
    IS(koubospar_encode(wrong).word, 0);
    wrong = expected;
    wrong.kind += 1000;
    IS(koubospar_encode(wrong).number, 5);
    if (expected.group != KOUBOSPAR_FENCE) {
        wrong = expected;
        wrong.pred = 1;
        IS(koubospar_encode(wrong).number, 5);
    }
    wrong = expected;
    wrong.region = expected.region == 0 ? 1 : 2; /* no region, or none that an h-word can choose */
    IS(koubospar_encode(wrong).number, 5);
}

/* h-words: the four regions that they choose, and registers up to x15 */
static void h_words(void)
{
    typedef struct koubospar_instruction I;
    static const uint64_t chosen[] = {KOUBOSPAR_EXPLICIT_0, KOUBOSPAR_EXPLICIT_1, KOUBOSPAR_EXPLICIT_2, KOUBOSPAR_EXPLICIT_3};
    for (uint32_t c = 0; c < 4; c++) {
        uint32_t rs1 = c / 2 << 19, other = c % 2;
        I load = {.group = KOUBOSPAR_H_LOAD, .kind = 3, .rd = 15, .rs1 = 9, .imm = 8, .region = chosen[c]};
        instruction(0x0084b78b | rs1 | other << 11, load);
        I store = {.group = KOUBOSPAR_H_STORE, .kind = 3, .rs1 = 9, .rs2 = 15, .imm = 8, .region = chosen[c]};
        instruction(0x00f4b42b | rs1 | other << 24, store);
        load.rd = store.rs2 = 16;
        IS(koubospar_encode(load).number, 5);
        IS(koubospar_encode(store).number, 5);
        load.rd = store.rs2 = 15;
        load.rs1 = store.rs1 = 16;
        IS(koubospar_encode(load).number, 5);
        IS(koubospar_encode(store).number, 5);
    }
}

static void codec(void)
{
    typedef struct koubospar_instruction I;
    instruction(0x00500513, (I){.group = KOUBOSPAR_IMMEDIATE, .kind = 0, .rd = 10, .imm = 5});
    instruction(0x00a001ab, (I){.group = KOUBOSPAR_H_STORE, .kind = 0, .rs2 = 10, .imm = 3, .region = 1});
    instruction(0x0400005b, (I){.group = KOUBOSPAR_HFI, .kind = 2});
    instruction(0xfffff0b7, (I){.group = KOUBOSPAR_UPPER, .kind = 0x37, .rd = 1, .imm = 0xfffffffffffff000});
    instruction(0x40628233, (I){.group = KOUBOSPAR_REGISTER, .kind = 256, .rd = 4, .rs1 = 5, .rs2 = 6});
    instruction(0xfe209ee3, (I){.group = KOUBOSPAR_BRANCH, .kind = 1, .rs1 = 1, .rs2 = 2, .imm = (uint64_t)-4});
    instruction(0x1238818f,
                (I){.group = KOUBOSPAR_FENCE, .rd = 3, .rs1 = 17, .fm = 1, .pred = 2, .succ = 3});
    for (uint32_t f = 0; f < 8; f++) { /* RV64M; MULH, MULHSU and MULHU have no word form */
        instruction(0x02628233 | f << 12, (I){.group = KOUBOSPAR_REGISTER, .kind = 8 + f, .rd = 4, .rs1 = 5, .rs2 = 6});
        if (f == 0 || f >= 4)
            instruction(0x0262823b | f << 12,
                        (I){.group = KOUBOSPAR_REGISTER_WORD, .kind = 8 + f, .rd = 4, .rs1 = 5, .rs2 = 6});
    }
    struct koubospar_decoded d = koubospar_decode(0x0400015b); /* case C */
    IS(d.number, 13);
    IS(d.instruction.group, 0);
}

/* a half-word against the long word that it stands for; half-words are no words for decoding */
static void half_word(uint16_t half, uint32_t word)
{
    struct koubospar_decoded h = koubospar_expand(half), w = koubospar_decode(word);
    IS(h.number, 0);
    IS(w.number, 0);
    IS(memcmp(&h.instruction, &w.instruction, sizeof h.instruction), 0);
    IS(koubospar_encode(h.instruction).word, word);
    IS(koubospar_decode(half).number, 13);
}

static void half_words(void)
{
    half_word(0x439d, 0x00700393); /* c.li x7, 7: addi x7, x0, 7 */
    half_word(0x15fd, 0xfff58593); /* c.addi x11, -1: addi x11, x11, -1 */
    half_word(0x862e, 0x00b00633); /* c.mv x12, x11: add x12, x0, x11 */
    half_word(0x9282, 0x000280e7); /* c.jalr x5: jalr x1, 0(x5) */
    half_word(0xfde5, 0xfe059ce3); /* c.bnez x11, .-8: bne x11, x0, .-8 */
    half_word(0x9002, 0x00100073); /* c.ebreak: ebreak */
    static const uint16_t illegal[] = {0, 0x2000, 0x2001, 0x6001, 0x8002, 0x9c41, 0x0003, 0xffff};
    for (size_t i = 0; i < sizeof illegal / sizeof illegal[0]; i++) {
        struct koubospar_decoded d = koubospar_expand(illegal[i]);
        IS(d.number, 13);
        IS(d.instruction.group, 0);
    }
}

/* each region's name against the permission bits with which the library takes a machine */
static void regions(void)
{
    static const int kinds[][2] = {
        {KOUBOSPAR_EXPLICIT_0, 0xb}, {KOUBOSPAR_EXPLICIT_1, 0xb}, {KOUBOSPAR_EXPLICIT_2, 0xb}, {KOUBOSPAR_EXPLICIT_3, 0xb},
        {KOUBOSPAR_DATA_0, 3},       {KOUBOSPAR_DATA_1, 3},       {KOUBOSPAR_DATA_2, 3},       {KOUBOSPAR_DATA_3, 3},
        {KOUBOSPAR_CODE_0, 4},       {KOUBOSPAR_CODE_1, 4},
    };
    for (int k = 0; k < KOUBOSPAR_REGIONS; k++)
        for (int bit = 0; bit < 5; bit++) {
            struct koubospar_machine m;
            memset(&m, 0, sizeof m);
            m.hfi.regions[kinds[k][0] - 1].permission = 1ull << bit;
            is("a step with a permission bit", koubospar_step(&m, NULL, 0).stop,
               kinds[k][1] >> bit & 1 ? KOUBOSPAR_FETCH_ABSENT : KOUBOSPAR_ILL_FORMED);
        }
}

/* each stop's name against the documents' number, and each group's against what the library says of a word of it */
static void names(void)
{
    static const int stops[][2] = {
        {KOUBOSPAR_COMPLETED, 0},       {KOUBOSPAR_MEMORY_TOO_LONG, 1},     {KOUBOSPAR_BUDGET_TOO_LARGE, 2},
        {KOUBOSPAR_ILL_FORMED, 3},      {KOUBOSPAR_WRITABLE_CODE, 4},       {KOUBOSPAR_PC_MISALIGNED, 10},
        {KOUBOSPAR_FETCH_REFUSED, 11},  {KOUBOSPAR_FETCH_ABSENT, 12},       {KOUBOSPAR_ILLEGAL_WORD, 13},
        {KOUBOSPAR_HFI_FORBIDS, 14},    {KOUBOSPAR_TARGET_MISALIGNED, 15},  {KOUBOSPAR_DATA_REFUSED, 16},
        {KOUBOSPAR_DATA_ABSENT, 17},    {KOUBOSPAR_SYSTEM_CALL, 18},        {KOUBOSPAR_BREAKPOINT, 19},
        {KOUBOSPAR_LEFT, 20},           {KOUBOSPAR_BUDGET_SPENT, 21},       {KOUBOSPAR_LOCK_WRITABLE_CODE, 22},
        {KOUBOSPAR_ENTER_INSIDE, 23},   {KOUBOSPAR_EXIT_OUTSIDE, 24},       {KOUBOSPAR_SETTING_FORBIDDEN, 25},
        {KOUBOSPAR_SLOT_COUNT, 50},     {KOUBOSPAR_ALLOWANCE_RANGE, 51},    {KOUBOSPAR_NOT_LOCKED, 52},
    };
    for (size_t i = 0; i < sizeof stops / sizeof stops[0]; i++)
        is("a stop by its name", (uint64_t)stops[i][0], (uint64_t)stops[i][1]);
    IS(KOUBOSPAR_MOST, 1373); /* the array that koubospar_respond takes */
    static const uint64_t groups[][2] = {
        {KOUBOSPAR_UPPER, 0x37},       {KOUBOSPAR_JAL, 0x6f},           {KOUBOSPAR_JALR, 0x67},
        {KOUBOSPAR_BRANCH, 0x63},      {KOUBOSPAR_LOAD, 0x03},          {KOUBOSPAR_STORE, 0x23},
        {KOUBOSPAR_IMMEDIATE, 0x13},   {KOUBOSPAR_SHIFT, 0x1013},       {KOUBOSPAR_ADDIW, 0x1b},
        {KOUBOSPAR_SHIFT_WORD, 0x101b}, {KOUBOSPAR_REGISTER, 0x33},     {KOUBOSPAR_REGISTER_WORD, 0x3b},
        {KOUBOSPAR_FENCE, 0x0f},       {KOUBOSPAR_SYSTEM, 0x73},        {KOUBOSPAR_H_LOAD, 0x0b},
        {KOUBOSPAR_H_STORE, 0x2b},     {KOUBOSPAR_HFI, 0x5b},
    };
    for (size_t i = 0; i < sizeof groups / sizeof groups[0]; i++)
        is("a group by its name", koubospar_decode((uint32_t)groups[i][1]).instruction.group, groups[i][0]);
}

/* document 01's whole example, and a refusal */
static void sheet(void)
{
    const char *whole = "0,5,100,200,10,3,0,0,0,0,fffffffffffffff0,4,a\n0,00500513\n4,00a001ab\n8,0400005b\n";
    const char *printed = "20,3,100,1,8,0,0,0,0\n10,5\n";
    uint8_t output[KOUBOSPAR_MOST];
    memset(output, 0xee, sizeof output);
    size_t n = koubospar_respond((const uint8_t *)whole, strlen(whole), output);
    IS(n, strlen(printed));
    IS(memcmp(output, printed, strlen(printed)) == 0, 1);
    for (size_t i = n; i < sizeof output; i++)
        IS(output[i], 0xee);
    n = koubospar_respond((const uint8_t *)whole, 0, output);
    IS(n, 11);
    IS(memcmp(output, "sheet,30,0\n", 11) == 0, 1);
}

int main(void)
{
    machine();
    calls();
    turns();
    codec();
    half_words();
    h_words();
    regions();
    names();
    sheet();
    puts(failed ? "layout FAILED" : "layout: every field as declared");
    return failed;
}
