/* A plain switch interpreter of the machine of document 01, with Jobs 1, 2 and 5
   to 8 of document 02: RV64I, RV64M and the half-words of RV64C with HFI checks on
   every fetch, load and store, over ten regions. It is the measure of speed;
   nothing is decoded ahead or remembered from one step to the next. */
#include "machine.h"

#include <string.h>

#define MEMORY_LIMIT 16777216u
#define BUDGET_LIMIT 1000000u
#define TOP ((uint64_t)1 << 48)

enum { READ = 1, WRITE = 2, EXECUTE = 4, LARGE = 8 };
enum { OP_LOAD = 1, OP_STORE = 2, OP_FETCH = 3 };

/* The numbers of a kind's regions, rising. */
struct kind {
    unsigned count;
    uint8_t numbers[4];
};

static const struct kind explicit_data = {4, {1, 4, 5, 6}}, implicit_data = {4, {2, 7, 8, 9}}, implicit_code = {2, {3, 10}};

/* Which permission bits each region has, by its number. */
enum { EXPLICIT_HAS = READ | WRITE | LARGE, DATA_HAS = READ | WRITE, CODE_HAS = EXECUTE };
static const uint64_t has[REGIONS + 1] = {0, EXPLICIT_HAS, DATA_HAS, CODE_HAS, EXPLICIT_HAS, EXPLICIT_HAS,
                                          EXPLICIT_HAS, DATA_HAS, DATA_HAS, DATA_HAS, CODE_HAS};

static int well_formed(const struct machine *m)
{
    for (unsigned number = 1; number <= REGIONS; number++)
        if (m->regions[number - 1].permission & ~has[number])
            return 0;
    return m->x[0] == 0 && m->mode <= 1 && m->reason <= 2 && m->options <= 15 && !(m->handler & 0xc000000000000003u) &&
           m->selector <= REGIONS && m->fault.occurred <= 1 && m->fault.region <= REGIONS && m->fault.op <= 3;
}

static inline const struct region *region_of(const struct machine *m, const struct kind *k, unsigned i)
{
    return &m->regions[k->numbers[i] - 1];
}

/* Does an implicit region keep its rule? With a good mask, low is 2^k - 1. */
static inline int implicit_rule(const struct region *r)
{
    uint64_t low = ~r->bound;
    return (low & (low + 1)) == 0 && low < TOP && (r->base & low) == 0 && r->base <= TOP - 1 - low;
}

/* The number of the first implicit region of the kind that matches a byte; 0 if
   none does. A region that breaks its rule matches nothing. */
static inline unsigned first_match(const struct machine *m, const struct kind *k, uint64_t a)
{
    for (unsigned i = 0; i < k->count; i++) {
        const struct region *r = region_of(m, k, i);
        if ((a & r->bound) == r->base && implicit_rule(r))
            return k->numbers[i];
    }
    return 0;
}

/* The bytes of an ordinary access or a fetch, one by one; the first that is
   refused is recorded. */
static __attribute__((noinline, cold)) int bytes_grant(struct machine *m, const struct kind *k, uint64_t a, uint64_t n,
                                                       uint64_t wanted, uint64_t op)
{
    for (uint64_t i = 0; i < n; i++) {
        unsigned number = first_match(m, k, a + i);
        if (number == 0 || !(m->regions[number - 1].permission & wanted)) {
            m->fault = (struct fault){1, number, op, a + i};
            return 0;
        }
    }
    return 1;
}

/* Has a region that keeps its rule one of the bytes a .. a + n - 1? Counted from
   its base on, and round from 2^64 to 0, the last of them then stands before
   its end, or up to n - 1 places past it. */
static inline int touches(const struct region *r, uint64_t a, uint64_t n)
{
    return a + n - 1 - r->base <= ~r->bound + n - 1;
}

/* Does the first region that touches the bytes a .. a + n - 1 have them all, and
   grant them? It is one stretch, so its first and last byte tell. A rule is asked
   after the addresses, which tell more often. */
static inline __attribute__((always_inline)) int one_grants(const struct machine *m, const struct kind *k, uint64_t a,
                                                            uint64_t n, uint64_t wanted)
{
#pragma GCC unroll 4
    for (unsigned i = 0; i < k->count; i++) {
        const struct region *r = region_of(m, k, i);
        if ((a & r->bound) == r->base && ((a + n - 1) & r->bound) == r->base && (r->permission & wanted) && implicit_rule(r))
            return 1;
        if (touches(r, a, n) && implicit_rule(r))
            break;
    }
    return 0;
}

/* The bytes a .. a + n - 1 of an ordinary access or a fetch. They are judged one
   by one only where no one region has them all, and after a no. */
static inline __attribute__((always_inline)) int implicit_grant(struct machine *m, const struct kind *k, uint64_t a,
                                                                uint64_t n, uint64_t wanted, uint64_t op)
{
    return one_grants(m, k, a, n, wanted) || bytes_grant(m, k, a, n, wanted, op);
}

static inline int explicit_rule(const struct region *r)
{
    uint64_t base = r->base, bound = r->bound;
    if (bound == 0 || bound > TOP || base > TOP - bound)
        return 0;
    if (r->permission & LARGE)
        return ((base | bound) & 65535) == 0;
    return base >> 32 == (base + bound - 1) >> 32;
}

/* Records the first refused byte of an h-prefixed access: its first, or where only
   the bound refuses, the first that is not below it. */
static __attribute__((noinline, cold)) int refuse_offset(struct machine *m, uint64_t number, int good, uint64_t offset,
                                                         uint64_t op)
{
    const struct region *r = &m->regions[number - 1];
    uint64_t i = 0;
    if (good)
        while (offset + i < r->bound)
            i++;
    m->fault = (struct fault){1, number, op, r->base + offset + i};
    return 0;
}

/* The bytes of an h-prefixed access, by the region it chooses alone. The offset
   is rs1's value, unsigned, plus the immediate, a whole number that does not
   wrap; the address of the first byte, which does, goes to *a. No good bound is
   above 2^48, so a value or an offset with its top bit set is refused, and other
   offsets have not wrapped. */
static inline int explicit_grant(struct machine *m, uint64_t number, uint64_t value, int64_t immediate, uint64_t n,
                                 uint64_t wanted, uint64_t op, uint64_t *a)
{
    const struct region *r = &m->regions[number - 1];
    uint64_t offset = value + (uint64_t)immediate;
    *a = r->base + offset;
    int good = explicit_rule(r) && (r->permission & wanted) && !((value | offset) >> 63);
    if (good && offset + n <= r->bound)
        return 1;
    return refuse_offset(m, number, good, offset, op);
}

/* May a store or an h-store write the byte? An h-store may choose any explicit
   region, so these do not hide each other. */
static int writable(const struct machine *m, uint64_t a)
{
    for (unsigned i = 0; i < explicit_data.count; i++) {
        const struct region *r = region_of(m, &explicit_data, i);
        if ((r->permission & WRITE) && explicit_rule(r) && a - r->base < r->bound)
            return 1;
    }
    unsigned number = first_match(m, &implicit_data, a);
    return number != 0 && (m->regions[number - 1].permission & WRITE);
}

static int executable(const struct machine *m, uint64_t a)
{
    unsigned number = first_match(m, &implicit_code, a);
    return number != 0 && (m->regions[number - 1].permission & EXECUTE);
}

static int both(const struct machine *m, uint64_t a)
{
    return executable(m, a) && writable(m, a);
}

/* Is the first byte past a region of the kind both? The mask is -2^k. */
static int both_past(const struct machine *m, const struct kind *k)
{
    for (unsigned i = 0; i < k->count; i++)
        if (both(m, region_of(m, k, i)->base - region_of(m, k, i)->bound))
            return 1;
    return 0;
}

/* Is a byte both writable and executable? The lowest such byte is the first of a
   region, or the first past an implicit one that hid it. Asked once a call and
   by an enter that locks, so it need not be part of the loop of steps. */
static __attribute__((noinline)) int code_is_writable(const struct machine *m)
{
    for (unsigned i = 0; i < REGIONS; i++)
        if (both(m, m->regions[i].base))
            return 1;
    return both_past(m, &implicit_data) || both_past(m, &implicit_code);
}

static inline int locked_code_is_writable(const struct machine *m)
{
    return m->mode == 1 && (m->options & 1) && code_is_writable(m);
}

/* Are all bytes in memory? If not, the first absent address goes to *absent. */
static inline int present(uint64_t a, uint64_t n, size_t length, uint64_t *absent)
{
    if (a < length && length - a >= n)
        return 1;
    *absent = a >= length ? a : (uint64_t)length;
    return 0;
}

static inline uint64_t get(const uint8_t *p, unsigned n)
{
    uint64_t v = 0;
    memcpy(&v, p, n); /* the host is little-endian */
    return v;
}

static inline int64_t extend(uint64_t v, unsigned width)
{
    return (int64_t)(v << (64 - width)) >> (64 - width);
}

static inline uint64_t word_value(uint64_t v)
{
    return (uint64_t)(int64_t)(int32_t)v;
}

/* What RV64M makes of two values. C leaves the division by zero undefined, and
   that of the most negative number by -1; so -1 divides by changing the sign. */
static inline uint64_t product_or_quotient(unsigned funct3, uint64_t p, uint64_t q)
{
    switch (funct3) {
    case 0: return p * q;
    case 1: return (uint64_t)((__int128)(int64_t)p * (int64_t)q >> 64);
    case 2: return (uint64_t)((__int128)(int64_t)p * (__int128)q >> 64);
    case 3: return (uint64_t)((unsigned __int128)p * q >> 64);
    case 4: return q == 0 ? ~(uint64_t)0 : q == ~(uint64_t)0 ? 0 - p : (uint64_t)((int64_t)p / (int64_t)q);
    case 5: return q == 0 ? ~(uint64_t)0 : p / q;
    case 6: return q == 0 ? p : q == ~(uint64_t)0 ? 0 : (uint64_t)((int64_t)p % (int64_t)q);
    default: return q == 0 ? p : p % q;
    }
}

/* The word forms: of the low halves, extended as the operation reads them. */
static inline uint64_t word_product_or_quotient(unsigned funct3, uint64_t p, uint64_t q)
{
    if (funct3 & 1)
        return word_value(product_or_quotient(funct3, (uint32_t)p, (uint32_t)q));
    return word_value(product_or_quotient(funct3, word_value(p), word_value(q)));
}

/* The region that an h-word chooses by the top bits of rs1's field and of rd's,
   or rs2's in a store. The low four bits name x0 to x15. */
static inline uint64_t chosen(unsigned rs1, unsigned other)
{
    uint64_t choice = 2 * (rs1 >> 4) + (other >> 4);
    return explicit_data.numbers[choice];
}

/* A fetch half by half: 11 and 12 of two bytes, and of the next two only if the
   low two bits of the first half are both ones. */
static __attribute__((noinline, cold)) uint64_t fetch_by_halves(struct machine *m, const uint8_t *memory, size_t length,
                                                                uint32_t *w, uint64_t *address)
{
    *w = 0;
    *address = 0;
    for (unsigned at = 0; at < 4; at += 2) {
        uint64_t a = m->pc + at;
        if (m->mode && !implicit_grant(m, &implicit_code, a, 2, EXECUTE, OP_FETCH))
            return 11;
        if (!present(a, 2, length, address))
            return 12;
        *w |= (uint32_t)get(memory + a, 2) << 8 * at;
        if ((*w & 3) != 3)
            break;
    }
    return 0;
}

/* Long words by their formats; an immediate may have bits above its field. */
static inline uint32_t i_word(uint32_t opcode, uint32_t funct3, uint32_t rd, uint32_t rs1, uint32_t value)
{
    return value << 20 | rs1 << 15 | funct3 << 12 | rd << 7 | opcode;
}

static inline uint32_t s_word(uint32_t funct3, uint32_t rs1, uint32_t rs2, uint32_t offset)
{
    return (offset >> 5) << 25 | rs2 << 20 | rs1 << 15 | funct3 << 12 | (offset & 31) << 7 | 0x23;
}

static inline uint32_t b_word(uint32_t funct3, uint32_t rs1, uint32_t offset)
{
    return (offset >> 12 & 1) << 31 | (offset >> 5 & 63) << 25 | rs1 << 15 | funct3 << 12 | (offset >> 1 & 15) << 8 |
           (offset >> 11 & 1) << 7 | 0x63;
}

static inline uint32_t j_word(uint32_t offset)
{
    return (offset >> 20 & 1) << 31 | (offset >> 1 & 1023) << 21 | (offset >> 11 & 1) << 20 | (offset >> 12 & 255) << 12 | 0x6f;
}

static inline uint32_t r_word(uint32_t operation, uint32_t rd, uint32_t rs1, uint32_t rs2)
{
    return operation | rs2 << 20 | rs1 << 15 | rd << 7;
}

/* Bits from .. from + n - 1 of a half-word, moved to bit to. */
#define MOVED(h, from, n, to) (((h) >> (from) & ((1u << (n)) - 1)) << (to))

/* Ones from bit `to` on if bit 12 of a half-word is set: the sign. */
#define SIGN(h, to) ((0 - ((h) >> 12 & 1)) << (to))

/* The immediates of half-words. */
static inline uint32_t six(uint32_t h)
{
    return MOVED(h, 12, 1, 5) | MOVED(h, 2, 5, 0);
}

static inline uint32_t six_signed(uint32_t h)
{
    return SIGN(h, 5) | MOVED(h, 2, 5, 0);
}

static inline uint32_t stack_distance(uint32_t h)
{
    return MOVED(h, 11, 2, 4) | MOVED(h, 7, 4, 6) | MOVED(h, 6, 1, 2) | MOVED(h, 5, 1, 3);
}

static inline uint32_t stack_step(uint32_t h)
{
    return SIGN(h, 9) | MOVED(h, 6, 1, 4) | MOVED(h, 5, 1, 6) | MOVED(h, 3, 2, 7) | MOVED(h, 2, 1, 5);
}

static inline uint32_t word_offset(uint32_t h)
{
    return MOVED(h, 10, 3, 3) | MOVED(h, 6, 1, 2) | MOVED(h, 5, 1, 6);
}

static inline uint32_t double_offset(uint32_t h)
{
    return MOVED(h, 10, 3, 3) | MOVED(h, 5, 2, 6);
}

static inline uint32_t jump_offset(uint32_t h)
{
    return SIGN(h, 11) | MOVED(h, 11, 1, 4) | MOVED(h, 9, 2, 8) | MOVED(h, 8, 1, 10) | MOVED(h, 7, 1, 6) | MOVED(h, 6, 1, 7) |
           MOVED(h, 3, 3, 1) | MOVED(h, 2, 1, 5);
}

static inline uint32_t branch_offset(uint32_t h)
{
    return SIGN(h, 8) | MOVED(h, 10, 2, 3) | MOVED(h, 5, 2, 6) | MOVED(h, 3, 2, 1) | MOVED(h, 2, 1, 5);
}

/* C.LUI and, for x2, C.ADDI16SP. */
static inline uint32_t short_upper(uint32_t h, uint32_t rd)
{
    if (six(h) == 0)
        return 0;
    return rd == 2 ? i_word(0x13, 0, 2, 2, stack_step(h)) : six_signed(h) << 12 | rd << 7 | 0x37;
}

/* C.SRLI, C.SRAI, C.ANDI, and what two registers of x8 to x15 make. */
static inline uint32_t short_operation(uint32_t h, uint32_t rd, uint32_t rs2)
{
    /* SUB, XOR, OR, AND; SUBW, ADDW */
    static const uint32_t operations[8] = {0x40000033, 0x00004033, 0x00006033, 0x00007033, 0x4000003b, 0x0000003b, 0, 0};
    uint32_t operation;
    switch (h >> 10 & 3) {
    case 0: return i_word(0x13, 5, rd, rd, six(h));
    case 1: return i_word(0x13, 5, rd, rd, 0x400 | six(h));
    case 2: return i_word(0x13, 7, rd, rd, six_signed(h));
    default:
        operation = operations[MOVED(h, 12, 1, 2) | MOVED(h, 5, 2, 0)];
        return operation ? r_word(operation, rd, rd, rs2) : 0;
    }
}

/* C.JR, C.MV, C.EBREAK, C.JALR, C.ADD */
static inline uint32_t short_register(uint32_t h, uint32_t rd, uint32_t rs2)
{
    uint32_t link = h >> 12 & 1;
    if (rs2)
        return r_word(0x33, rd, link ? rd : 0, rs2);
    if (rd)
        return i_word(0x67, 0, link, rd, 0);
    return link ? 0x00100073 : 0;
}

/* The long word of a half-word's instruction, 0 if it is illegal: by quadrant and
   funct3, in the listing's order. low and high are x8 to x15. Not part of the
   loop of steps, where it would take registers from the long words. */
static __attribute__((noinline)) uint32_t expand(uint32_t h)
{
    uint32_t low = 8 + (h >> 2 & 7), high = 8 + (h >> 7 & 7), rd = h >> 7 & 31, rs2 = h >> 2 & 31;
    switch ((h & 3) << 3 | h >> 13) {
    case 0: return stack_distance(h) ? i_word(0x13, 0, low, 2, stack_distance(h)) : 0;
    case 2: return i_word(0x03, 2, low, high, word_offset(h));
    case 3: return i_word(0x03, 3, low, high, double_offset(h));
    case 6: return s_word(2, high, low, word_offset(h));
    case 7: return s_word(3, high, low, double_offset(h));
    case 8: return i_word(0x13, 0, rd, rd, six_signed(h));
    case 9: return rd ? i_word(0x1b, 0, rd, rd, six_signed(h)) : 0;
    case 10: return i_word(0x13, 0, rd, 0, six_signed(h));
    case 11: return short_upper(h, rd);
    case 12: return short_operation(h, high, low);
    case 13: return j_word(jump_offset(h));
    case 14: return b_word(0, high, branch_offset(h));
    case 15: return b_word(1, high, branch_offset(h));
    case 16: return i_word(0x13, 1, rd, rd, six(h));
    case 18: return rd ? i_word(0x03, 2, rd, 2, MOVED(h, 12, 1, 5) | MOVED(h, 4, 3, 2) | MOVED(h, 2, 2, 6)) : 0;
    case 19: return rd ? i_word(0x03, 3, rd, 2, MOVED(h, 12, 1, 5) | MOVED(h, 5, 2, 3) | MOVED(h, 2, 3, 6)) : 0;
    case 20: return short_register(h, rd, rs2);
    case 22: return s_word(2, 2, rs2, MOVED(h, 9, 4, 2) | MOVED(h, 7, 2, 6));
    case 23: return s_word(3, 2, rs2, MOVED(h, 10, 3, 3) | MOVED(h, 7, 3, 6));
    default: return 0;
    }
}

#define STOP(number)  \
    do {              \
        *address = 0; \
        return number; \
    } while (0)

/* Questions 4 to 13 and the effect. Answers the stop; 0 if completed. */
static inline uint64_t one_step(struct machine *m, uint8_t *memory, size_t length, uint64_t *address)
{
    uint64_t *x = m->x;
    uint64_t pc = m->pc, next = pc + 4;
    uint32_t w;

    if (pc & 1)
        STOP(10);
    /* Where all four bytes are granted and in memory nothing is left to ask, whatever the word's length is. */
    if ((!m->mode || one_grants(m, &implicit_code, pc, 4, EXECUTE)) && pc < length && length - pc >= 4) {
        w = (uint32_t)get(memory + pc, 4);
    } else {
        uint32_t fetched; /* so that w stays in a register */
        uint64_t stop = fetch_by_halves(m, memory, length, &fetched, address);
        if (stop)
            return stop;
        w = fetched;
    }
    if ((w & 3) != 3) {
        w = expand(w & 65535);
        next = pc + 2;
    }

    unsigned rd = w >> 7 & 31, rs1 = w >> 15 & 31, rs2 = w >> 20 & 31, funct3 = w >> 12 & 7, funct7 = w >> 25;
    int64_t i_value = (int32_t)w >> 20;
    int64_t s_value = (int64_t)((int32_t)w >> 25) * 32 + rd;
    uint64_t v = 0, a;

    switch (w & 127) {
    case 0x37: /* LUI */
        v = (uint64_t)(int64_t)(int32_t)(w & 0xfffff000u);
        goto write_rd;
    case 0x17: /* AUIPC */
        v = pc + (uint64_t)(int64_t)(int32_t)(w & 0xfffff000u);
        goto write_rd;
    case 0x6f: { /* JAL */
        uint64_t offset = (w >> 31) << 20 | (w >> 12 & 255) << 12 | (w >> 20 & 1) << 11 | (w >> 21 & 1023) << 1;
        v = next;
        next = pc + (uint64_t)extend(offset, 21);
        goto write_rd;
    }
    case 0x67: { /* JALR */
        if (funct3)
            STOP(13);
        v = next;
        next = (x[rs1] + (uint64_t)i_value) & ~(uint64_t)1;
        goto write_rd;
    }
    case 0x63: { /* branches */
        uint64_t p = x[rs1], q = x[rs2];
        int taken;
        switch (funct3) {
        case 0: taken = p == q; break;
        case 1: taken = p != q; break;
        case 4: taken = (int64_t)p < (int64_t)q; break;
        case 5: taken = (int64_t)p >= (int64_t)q; break;
        case 6: taken = p < q; break;
        case 7: taken = p >= q; break;
        default: STOP(13);
        }
        if (taken) {
            uint64_t offset = (w >> 31) << 12 | (w >> 7 & 1) << 11 | (w >> 25 & 63) << 5 | (w >> 8 & 15) << 1;
            next = pc + (uint64_t)extend(offset, 13);
        }
        goto done;
    }
    case 0x03: /* loads */
    case 0x0b: { /* h-loads */
        if (funct3 == 7)
            STOP(13);
        unsigned n = 1u << (funct3 & 3);
        if (w & 8) {
            if (!m->mode)
                STOP(14);
            if (!explicit_grant(m, chosen(rs1, rd), x[rs1 & 15], i_value, n, READ, OP_LOAD, &a))
                STOP(16);
            rd &= 15;
        } else {
            a = x[rs1] + (uint64_t)i_value;
            if (m->mode && !implicit_grant(m, &implicit_data, a, n, READ, OP_LOAD))
                STOP(16);
        }
        if (!present(a, n, length, address))
            return 17;
        switch (funct3) {
        case 0: v = (uint64_t)(int64_t)(int8_t)memory[a]; break;
        case 1: v = (uint64_t)(int64_t)(int16_t)get(memory + a, 2); break;
        case 2: v = (uint64_t)(int64_t)(int32_t)get(memory + a, 4); break;
        case 3: v = get(memory + a, 8); break;
        case 4: v = memory[a]; break;
        case 5: v = get(memory + a, 2); break;
        default: v = get(memory + a, 4); break;
        }
        goto write_rd;
    }
    case 0x23: /* stores */
    case 0x2b: { /* h-stores */
        if (funct3 > 3)
            STOP(13);
        unsigned n = 1u << funct3;
        if (w & 8) {
            if (!m->mode)
                STOP(14);
            if (!explicit_grant(m, chosen(rs1, rs2), x[rs1 & 15], s_value, n, WRITE, OP_STORE, &a))
                STOP(16);
            rs2 &= 15;
        } else {
            a = x[rs1] + (uint64_t)s_value;
            if (m->mode && !implicit_grant(m, &implicit_data, a, n, WRITE, OP_STORE))
                STOP(16);
        }
        if (!present(a, n, length, address))
            return 17;
        switch (funct3) {
        case 0: memory[a] = (uint8_t)x[rs2]; break;
        case 1: memcpy(memory + a, &x[rs2], 2); break;
        case 2: memcpy(memory + a, &x[rs2], 4); break;
        default: memcpy(memory + a, &x[rs2], 8); break;
        }
        goto done;
    }
    case 0x13: /* operations with an immediate */
        switch (funct3) {
        case 0: v = x[rs1] + (uint64_t)i_value; break;
        case 1:
            if (w >> 26)
                STOP(13);
            v = x[rs1] << (w >> 20 & 63);
            break;
        case 2: v = (int64_t)x[rs1] < i_value; break;
        case 3: v = x[rs1] < (uint64_t)i_value; break;
        case 4: v = x[rs1] ^ (uint64_t)i_value; break;
        case 5:
            if (w >> 26 == 0)
                v = x[rs1] >> (w >> 20 & 63);
            else if (w >> 26 == 16)
                v = (uint64_t)((int64_t)x[rs1] >> (w >> 20 & 63));
            else
                STOP(13);
            break;
        case 6: v = x[rs1] | (uint64_t)i_value; break;
        default: v = x[rs1] & (uint64_t)i_value; break;
        }
        goto write_rd;
    case 0x1b:
        switch (funct3) {
        case 0: v = word_value(x[rs1] + (uint64_t)i_value); break;
        case 1:
            if (funct7)
                STOP(13);
            v = word_value(x[rs1] << rs2);
            break;
        case 5:
            if (funct7 == 0)
                v = word_value((uint32_t)x[rs1] >> rs2);
            else if (funct7 == 32)
                v = (uint64_t)(int64_t)((int32_t)x[rs1] >> rs2);
            else
                STOP(13);
            break;
        default: STOP(13);
        }
        goto write_rd;
    case 0x33: /* operations between registers */
        if (funct7 == 0) {
            switch (funct3) {
            case 0: v = x[rs1] + x[rs2]; break;
            case 1: v = x[rs1] << (x[rs2] & 63); break;
            case 2: v = (int64_t)x[rs1] < (int64_t)x[rs2]; break;
            case 3: v = x[rs1] < x[rs2]; break;
            case 4: v = x[rs1] ^ x[rs2]; break;
            case 5: v = x[rs1] >> (x[rs2] & 63); break;
            case 6: v = x[rs1] | x[rs2]; break;
            default: v = x[rs1] & x[rs2]; break;
            }
        } else if (funct7 == 1) {
            v = product_or_quotient(funct3, x[rs1], x[rs2]);
        } else if (funct7 == 32 && funct3 == 0) {
            v = x[rs1] - x[rs2];
        } else if (funct7 == 32 && funct3 == 5) {
            v = (uint64_t)((int64_t)x[rs1] >> (x[rs2] & 63));
        } else {
            STOP(13);
        }
        goto write_rd;
    case 0x3b:
        switch (funct7 << 3 | funct3) {
        case 0: v = word_value(x[rs1] + x[rs2]); break;
        case 32 << 3: v = word_value(x[rs1] - x[rs2]); break;
        case 1: v = word_value(x[rs1] << (x[rs2] & 31)); break;
        case 5: v = word_value((uint32_t)x[rs1] >> (x[rs2] & 31)); break;
        case 32 << 3 | 5: v = (uint64_t)(int64_t)((int32_t)x[rs1] >> (x[rs2] & 31)); break;
        case 1 << 3:
        case 1 << 3 | 4:
        case 1 << 3 | 5:
        case 1 << 3 | 6:
        case 1 << 3 | 7: v = word_product_or_quotient(funct3, x[rs1], x[rs2]); break;
        default: STOP(13);
        }
        goto write_rd;
    case 0x0f: /* FENCE */
        if (funct3)
            STOP(13);
        goto done;
    case 0x73:
        if (w == 0x00100073)
            STOP(19);
        if (w != 0x00000073)
            STOP(13);
        if (!m->mode || !(m->options & 2))
            STOP(18);
        m->mode = 0;
        m->reason = 2;
        m->exit_pc = pc;
        next = m->handler;
        goto done;
    case 0x5b: {
        if (funct3 || funct7 > 12)
            STOP(13);
        /* which of rd, rs1, rs2 the rows name: bits 0, 1, 2 */
        static const uint8_t named[13] = {2, 6, 0, 2, 2, 1, 2, 1, 2, 1, 2, 1, 0};
        unsigned spare = ~named[funct7];
        if ((spare & 1 && rd) || (spare & 2 && rs1) || (spare & 4 && rs2))
            STOP(13);
        uint64_t operand = x[rs1];
        int inside = m->mode == 1, locked = inside && (m->options & 1);
        struct region *r = &m->regions[m->selector - (m->selector != 0)];
        /* 23, 24 and 25 go by where the word stands alone; 14 after them by its operand */
        if (funct7 < 2 && inside)
            STOP(23);
        if (funct7 == 2 && !inside)
            STOP(24);
        if (funct7 == 10 ? inside : funct7 > 2 && locked)
            STOP(25);
        if (funct7 >= 4 && funct7 <= 9 && m->selector == 0)
            STOP(14);
        switch (funct7) {
        case 0:
        case 1:
            if (operand > 15)
                STOP(14);
            if ((operand & 1) && code_is_writable(m))
                STOP(22);
            if (funct7 == 1) {
                if (x[rs2] & 1)
                    STOP(15);
                next = x[rs2];
            }
            m->mode = 1;
            m->options = operand;
            m->fault.occurred = 0;
            break;
        case 2:
            m->mode = 0;
            m->reason = 1;
            m->exit_pc = pc;
            if (m->options & 4)
                next = m->handler;
            break;
        case 3:
            if (operand < 1 || operand > REGIONS)
                STOP(14);
            m->selector = operand;
            break;
        case 4: r->base = operand; break;
        case 5: v = r->base; goto write_rd;
        case 6: r->bound = operand; break;
        case 7: v = r->bound; goto write_rd;
        case 8:
            if (operand & ~has[m->selector])
                STOP(14);
            r->permission = operand;
            break;
        case 9: v = r->permission; goto write_rd;
        case 10: m->handler = operand & 0x3ffffffffffffffcu; break;
        case 11: v = m->handler; goto write_rd;
        default:
            memset(m->regions, 0, sizeof m->regions);
            m->selector = 0;
            break;
        }
        goto done;
    }
    default: STOP(13);
    }

write_rd:
    if (rd)
        x[rd] = v;
done:
    m->pc = next;
    return 0;
}

void plain_step(struct machine *m, uint8_t *memory, size_t length, uint64_t *answer)
{
    answer[1] = 0;
    if (length > MEMORY_LIMIT)
        answer[0] = 1;
    else if (!well_formed(m))
        answer[0] = 3;
    else if (locked_code_is_writable(m))
        answer[0] = 4;
    else
        answer[0] = one_step(m, memory, length, &answer[1]);
}

void plain_run(struct machine *m, uint8_t *memory, size_t length, uint64_t budget, uint64_t *answer)
{
    uint64_t count = 0, stop = 0, address = 0;
    if (length > MEMORY_LIMIT)
        stop = 1;
    else if (budget > BUDGET_LIMIT)
        stop = 2;
    else if (!well_formed(m))
        stop = 3;
    else if (locked_code_is_writable(m))
        stop = 4;
    if (!stop) {
        uint64_t began = m->mode;
        for (;;) {
            if (count == budget) {
                stop = 21;
                break;
            }
            stop = one_step(m, memory, length, &address);
            if (stop)
                break;
            count++;
            if (began && !m->mode) {
                stop = 20;
                break;
            }
        }
    }
    answer[0] = stop;
    answer[1] = count;
    answer[2] = stop == 12 || stop == 17 ? address : 0;
}
