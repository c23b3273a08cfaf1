/* libkoubospar.a and libkoubospar_codec.a: an RV64IMC machine (of C the integer words) with HFI, for a controller.
 *
 * `c/archives` builds them, in c/out, from the crates koubospar_c and koubospar_codec_c; nothing of them is
 * compiled unless it is proved. The second has koubospar_decode, koubospar_expand and koubospar_encode, the first all else. Numbers and
 * values are those of the scope paper, "document 01", with what "document 02" has changed. Every function takes every
 * value of every field; what it refuses, it answers with a number. What nothing checks is C's own: a machine is a
 * valid, aligned and initialized record, `memory` is valid for `length` bytes, the two do not overlap, and nobody else
 * uses them during a call. The libraries have no state of their own, so calls on different machines may be made at the
 * same time. libkoubospar.a needs memcpy and memset from whoever links it, libkoubospar_codec.a nothing.
 *
 * This header is written by hand. The proofs speak of the record by its fields' names, so they would not notice two
 * fields exchanged in it, and the library would be built all the same. `c/try` is this header's only guard: it asks the
 * library itself (koubospar_probe, koubospar_place, and calls) where each field stands. Run it after every build, with the
 * compiler of the controller's code (`CC=.. c/try`), before you believe the declarations below.
 *
 * The libraries are compiled for x86-64 alone, with the System V calling convention, and use SSE2, which every x86-64
 * has (built without --cpu they use SSE4.1 too, and ask nobody whether it is there): a controller that calls them from an interrupt has to save those registers. Another machine takes a compiler back
 * end for it in the kit; sources and proofs stay as they are, and `c/try` and `oracle/try` have to be run there. Memory is
 * little-endian by its definition and not by the host's.
 */
#ifndef KOUBOSPAR_H
#define KOUBOSPAR_H

#include <stdbool.h>
#include <stddef.h>
#include <stdint.h>

#ifdef __cplusplus
extern "C" {
#endif

/* ---- the machine ---------------------------------------------------------------------------------------------- */

/* The regions' numbers by kind: "Explicit are 1, 4, 5, 6; implicit data 2, 7, 8, 9; code 3, 10." Region n stands at n - 1
 * of the machine's regions, and n is its number in the selector and in the fault record. */
enum {
    KOUBOSPAR_EXPLICIT_0 = 1, /* an h-word chooses one of these four by 0 to 3 */
    KOUBOSPAR_EXPLICIT_1 = 4,
    KOUBOSPAR_EXPLICIT_2 = 5,
    KOUBOSPAR_EXPLICIT_3 = 6,
    KOUBOSPAR_DATA_0 = 2, /* ordinary loads and stores ask these, in this order */
    KOUBOSPAR_DATA_1 = 7,
    KOUBOSPAR_DATA_2 = 8,
    KOUBOSPAR_DATA_3 = 9,
    KOUBOSPAR_CODE_0 = 3, /* fetches ask these */
    KOUBOSPAR_CODE_1 = 10,
    KOUBOSPAR_REGIONS = 10
};

/* "permissions: bit 0 read, bit 1 write, bit 2 execute, bit 3 large". An explicit region has bits 0, 1 and 3, and a bound;
 * an implicit data region bits 0 and 1, and a mask; a code region bit 2, and a mask. A region that breaks its rule matches
 * nothing, and so does one of zeros.
 *
 * Each byte of a fetch, a load or a store is judged singly: "the lowest-numbered matching region of the kind decides, even
 * if a later one would grant more". So a small region with a low number takes something out of a large one behind it, and
 * an access may lie over two regions.
 *
 * Not so h-words: "an h-word asks only the region it chooses". The top bit of rs1's field counts 2, that of rd's (of rs2's
 * in an h-store) 1, and 0 to 3 mean region 1, 4, 5, 6. The low four bits of those fields name x0 to x15. The offset is "the
 * unsigned value of rs1 plus the signed immediate, as a whole number that does not wrap": in a region that keeps its rule
 * and has the permission it reaches every byte from base on, below base + bound. */
struct koubospar_region {
    uint64_t base;
    uint64_t bound;
    uint64_t permission;
};

/* "Fault record: occurred (0 or 1), region, op (0 none, 1 load, 2 store, 3 fetch), and the address". The region is 1 to 10:
 * the one that an h-word chose, or the one that decided; 0 where none matched the byte. */
struct koubospar_fault {
    uint64_t occurred;
    uint64_t region;
    uint64_t op;
    uint64_t address;
};

struct koubospar_hfi {
    uint64_t mode;     /* 0 or 1 */
    uint64_t reason;   /* 0 none, 1 hfiexit, 2 system call */
    uint64_t epc;      /* exit pc */
    uint64_t options;  /* bit 0 lock regions, 1 redirect system calls, 2 redirect exits, 3 serialize */
    uint64_t handler;  /* exit handler; bits 0, 1, 62 and 63 clear */
    uint64_t selector; /* 0 to 10, 0 for none */
    struct koubospar_region regions[KOUBOSPAR_REGIONS]; /* region n stands at n - 1 */
    struct koubospar_fault fault;
};

/* A record of zeros is well formed: outside HFI mode, at pc 0. */
struct koubospar_machine {
    uint64_t x[32];
    uint64_t pc;
    struct koubospar_hfi hfi;
};

/* ---- stack and cost -------------------------------------------------------------------------------------------- */

/* The bytes of stack that a call takes, what it is called with included: measured by painting, over every stop and every
 * kind of word, and rounded up. `c/try` measures them again and fails where a call takes more. Measured were 2,904 for a
 * step, 2,360 for a run, 16 for a resumption, 2,376 for a turn, 640 for putting a machine into a slot, 70,360 for a
 * sheet, 304 and 384 for decoding and encoding, 352 for expanding, 608 for the probe and 944 for a place. No call's stack grows with the memory, the budget or the sheet. */
#define KOUBOSPAR_STACK_STEP 3072
#define KOUBOSPAR_STACK_RUN 2560
#define KOUBOSPAR_STACK_RESUME 768
#define KOUBOSPAR_STACK_TURN 3072
#define KOUBOSPAR_STACK_PUT 768
#define KOUBOSPAR_STACK_RESPOND 71168
#define KOUBOSPAR_STACK_DECODE 512
#define KOUBOSPAR_STACK_ENCODE 512
#define KOUBOSPAR_STACK_EXPAND 512
#define KOUBOSPAR_STACK_PROBE 768
#define KOUBOSPAR_STACK_PLACE 1152

/* A step call is a run of one step: of a locked machine it costs 1,170 to 2,890 instructions more than a step inside a run, which
 * costs some 120 to 190 on the programs of bench/ (bench/README.md). A turn of four slots costs 3,340 to 11,920 more than its run. Make runs, and steps only where one must look in between. */

/* ---- the calls on a machine ----------------------------------------------------------------------------------- */

/* The number that ended a call. Of those that a call can answer, the first whose question is answered no. 4 is asked
 * after 3, of the ten regions alone: a byte below 2^48 counts whether or not memory has it, and a region that breaks its
 * rule does not. A byte whose lowest-numbered data region lacks write is not writable by stores, whatever a later one has,
 * and likewise with code; of the explicit regions each counts for itself. It is asked once a call; no step of a run can
 * bring about what it refuses. What HFI forbids is asked after 13 and before 15, in the order 23, 24, 25, 14, 22; a caller
 * to whom that is all one looks for all five. */
enum {
    KOUBOSPAR_COMPLETED = 0,           /* a completed step, or a resumption */
    KOUBOSPAR_MEMORY_TOO_LONG = 1,     /* memory is longer than 16,777,216 bytes */
    KOUBOSPAR_BUDGET_TOO_LARGE = 2,    /* the budget is above 1,000,000 */
    KOUBOSPAR_ILL_FORMED = 3,          /* the machine is not well formed */
    KOUBOSPAR_WRITABLE_CODE = 4,       /* in HFI mode with regions locked, a byte is both writable and executable */
    KOUBOSPAR_PC_MISALIGNED = 10,      /* pc is no multiple of 2 */
    KOUBOSPAR_FETCH_REFUSED = 11,      /* in HFI mode, a byte of the word is not executable */
    KOUBOSPAR_FETCH_ABSENT = 12,       /* a byte of the word is not in memory */
    KOUBOSPAR_ILLEGAL_WORD = 13,       /* the word is not legal */
    KOUBOSPAR_HFI_FORBIDS = 14,        /* a bad operand of an HFI word, no region selected, an h-word outside HFI mode */
    KOUBOSPAR_TARGET_MISALIGNED = 15,  /* the target of an enter with jump is no multiple of 2 */
    KOUBOSPAR_DATA_REFUSED = 16,       /* a data byte is not granted */
    KOUBOSPAR_DATA_ABSENT = 17,        /* a data byte is not in memory */
    KOUBOSPAR_SYSTEM_CALL = 18,        /* an ECALL that is not redirected */
    KOUBOSPAR_BREAKPOINT = 19,         /* an EBREAK */
    KOUBOSPAR_LEFT = 20,               /* a run that began in HFI mode has left it */
    KOUBOSPAR_BUDGET_SPENT = 21,       /* the budget has no step left */
    KOUBOSPAR_LOCK_WRITABLE_CODE = 22, /* an enter would begin what 4 refuses */
    KOUBOSPAR_ENTER_INSIDE = 23,       /* an enter in HFI mode */
    KOUBOSPAR_EXIT_OUTSIDE = 24,       /* an exit outside HFI mode */
    KOUBOSPAR_SETTING_FORBIDDEN = 25   /* a region or handler instruction that HFI mode forbids */
};

struct koubospar_stop {
    uint64_t stop;
    uint64_t address; /* for 12 and 17 the first absent address; else 0 */
};

struct koubospar_run_stop {
    uint64_t stop;
    uint64_t count; /* completed steps; 20 counts the step that left; 10 to 19 and 22 to 25 do not count theirs */
    uint64_t address;
};

/* One step: 0, or 1, 3, 4, 10 to 19, 22 to 25. After 0 machine and memory are what the instruction makes of them. Every
 * other number leaves both as they were, but for 11 and 16, which write the machine's fault record. */
struct koubospar_stop koubospar_step(struct koubospar_machine *machine, uint8_t *memory, size_t length);

/* A run of at most `budget` steps: 1 to 4, or 10 to 25. 1 to 4 leave all as it was, with count 0. Otherwise machine and
 * memory are as after `count` completed steps, and after 11 and 16 the fault record is written besides. */
struct koubospar_run_stop koubospar_run(struct koubospar_machine *machine, uint8_t *memory, size_t length, uint64_t budget);

/* Meant for 18: puts `value` in x10 and adds 4 to pc (ECALL has no half-word), and answers 0; or 3, which leaves the machine as it was. It asks
 * nothing else, 4 neither. */
struct koubospar_stop koubospar_resume(struct koubospar_machine *machine, uint64_t value);

/* ---- several machines in turn over one memory ------------------------------------------------------------------- */

/* "Take 1 to 4 machines and a step allowance of 1 to 10,000." */
#define KOUBOSPAR_SLOTS 4
#define KOUBOSPAR_LARGEST_ALLOWANCE 10000

/* A machine among those that take turns (the document's deck), and the stop of its last turn: 0 if it has had none since it
 * was put there. A slot whose stop is neither 0 nor 21 (KOUBOSPAR_BUDGET_SPENT) is stopped: it is passed over, and its
 * machine is not asked about, until koubospar_put puts a machine there again. */
struct koubospar_slot {
    struct koubospar_machine machine;
    uint64_t stop;
};

/* What the controller keeps and lends to each turn. Slot n, from 1 on, stands at n - 1; the first `count` of them take
 * turns. "The place starts at 1": it is the slot from which the next turn looks on, and any number outside the count is taken
 * as 1, so a record of zeros with its count set and a machine put into each of that many slots begins at slot 1. `total` is the
 * sum of the counts of all turns, modulo 2^64; it may be set back to 0 between turns. */
struct koubospar_scheduler {
    struct koubospar_slot slots[KOUBOSPAR_SLOTS];
    uint64_t count;
    uint64_t place;
    uint64_t total;
};

/* Numbers that only a turn answers. */
enum {
    KOUBOSPAR_SLOT_COUNT = 50,      /* the count is not 1 to 4 */
    KOUBOSPAR_ALLOWANCE_RANGE = 51, /* the allowance is not 1 to 10,000 */
    KOUBOSPAR_NOT_LOCKED = 52       /* a machine that is not stopped is not in HFI mode with regions locked */
};

struct koubospar_turn_stop {
    uint64_t slot; /* whose turn it was; 0 if no run was made */
    uint64_t stop;
    uint64_t count;
    uint64_t address;
};

/* A turn: a run, with the allowance as its budget, of the first slot that is not stopped, from the place on and round. It
 * answers the slot, and what the run answers. The slot then has the run's machine and stop, the place is the slot after it, and
 * the total has grown by the count. 1, 50, 51, 3, 4 and 52 are asked first, in this order, the last three of each slot that is
 * not stopped, slot by slot, whoever's turn it is: slot, count and address are then 0, and nothing has changed. With all
 * slots stopped it answers 0 four times, and nothing has changed either.
 *
 * What is proved of it: a slot that stays unstopped gets its turn before any other gets two; and where no slot can write a byte that
 * another can read, write or execute, each goes on as if it alone had made as many turns. */
struct koubospar_turn_stop koubospar_turn(struct koubospar_scheduler *scheduler, uint8_t *memory, size_t length, uint64_t allowance);

/* Puts a machine into slot n, 1 to 4, which then has had no turn; the answer is whether there is such a slot. Nothing else
 * changes, count and place neither. The machine is asked about by the next turn. */
bool koubospar_put(struct koubospar_scheduler *scheduler, uint64_t n, const struct koubospar_machine *machine);

/* ---- words and instructions ----------------------------------------------------------------------------------- */

/* Groups, and which fields each has besides its kind. The others are 0. */
enum {
    KOUBOSPAR_UPPER = 1,          /* rd, imm (64 bits, the 12 low ones 0) */
    KOUBOSPAR_JAL = 2,            /* rd, imm (an offset in bytes); kind 0 */
    KOUBOSPAR_JALR = 3,           /* rd, rs1, imm; kind 0 */
    KOUBOSPAR_BRANCH = 4,         /* rs1, rs2, imm (an offset in bytes) */
    KOUBOSPAR_LOAD = 5,           /* rd, rs1, imm */
    KOUBOSPAR_STORE = 6,          /* rs1, rs2, imm */
    KOUBOSPAR_IMMEDIATE = 7,      /* rd, rs1, imm */
    KOUBOSPAR_SHIFT = 8,          /* rd, rs1, imm (an amount) */
    KOUBOSPAR_ADDIW = 9,          /* rd, rs1, imm; kind 0 */
    KOUBOSPAR_SHIFT_WORD = 10,    /* rd, rs1, imm (an amount) */
    KOUBOSPAR_REGISTER = 11,      /* rd, rs1, rs2 */
    KOUBOSPAR_REGISTER_WORD = 12, /* rd, rs1, rs2 */
    KOUBOSPAR_FENCE = 13,         /* fm, pred, succ, rs1, rd; kind 0 */
    KOUBOSPAR_SYSTEM = 14,        /* no field */
    KOUBOSPAR_H_LOAD = 15,        /* rd, rs1, imm, region; rd and rs1 are 0 to 15 */
    KOUBOSPAR_H_STORE = 16,       /* rs1, rs2, imm, region; rs1 and rs2 are 0 to 15 */
    KOUBOSPAR_HFI = 17            /* those of rd, rs1, rs2 that the row of document 01's table names */
};

/* A kind's number is its code in the word: the opcode of an upper word; funct3 of a branch, a load, a store (h-prefixed
 * or not) and an immediate; funct7 (of a 64-bit shift by an amount, the six bits above it) and funct3 as one number,
 * 8 * funct7 + funct3, of a register word (so ADD is 0, SUB 256 and MUL 8) and of shifts; funct12 of a system word; funct7
 * of an HFI word. */
struct koubospar_instruction {
    uint64_t group;
    uint64_t kind;
    uint64_t rd;
    uint64_t rs1;
    uint64_t rs2;
    uint64_t imm; /* the 64 bits that it stands for, sign extended */
    uint64_t fm;
    uint64_t pred;
    uint64_t succ;
    uint64_t region; /* in an h-word the region that it chooses: 1, 4, 5 or 6 */
};

struct koubospar_decoded {
    uint64_t number; /* 0; or 13 for an illegal word, with an instruction of zeros */
    struct koubospar_instruction instruction;
};

struct koubospar_encoded {
    uint64_t number; /* 0; or 5, with word 0 */
    uint32_t word;
};

/* "Decoding answers 13 for an illegal word and only then." A word here is a long one, of four bytes: one whose low two bits are
 * not both ones is illegal. */
struct koubospar_decoded koubospar_decode(uint32_t word);

/* The instruction that a half-word, an integer word of RV64C, stands for; or 13, for floating-point and reserved ones, 0, and
 * any number whose low two bits are both ones, which begins a long word. HINTs are legal. What is answered has a long word
 * too: koubospar_encode takes it. Several half-words may stand for one instruction, so there is no way back. */
struct koubospar_decoded koubospar_expand(uint16_t half);

/* "Encoding answers 5, with word 0, if a field of the instruction is outside its range and only then": also a group or
 * a kind that there is not, and a field that is not 0 in a group that lacks it. */
struct koubospar_encoded koubospar_encode(struct koubospar_instruction instruction);

/* ---- the run sheet -------------------------------------------------------------------------------------------- */

/* The most bytes that the answer to a sheet takes. */
#define KOUBOSPAR_MOST 1373

/* What the sheet program prints for the sheet `input`: either the one line of a refusal (30 to 35), or the result of the
 * run and its registers. It stands at the start of `output`; the number of bytes is answered, and those after them are
 * left as they were. The run has a memory of its own, on the stack (64 KiB). "A setup line has 13 fields, the other regions
 * then being zero, or 34, with regions 1 to 10 in order and the budget last." "An empty budget now means 50,000": such a
 * sheet is answered like the same sheet with c350 written there, where that has at most 65,536 bytes. koubospar_run has no
 * default. */
size_t koubospar_respond(const uint8_t *input, size_t length, uint8_t output[KOUBOSPAR_MOST]);

/* ---- a test of these declarations ----------------------------------------------------------------------------- */

/* A machine whose place i, in 64-bit words from the start, holds 1000 + i; x1 to x30 are 0. It is not well formed. */
struct koubospar_machine koubospar_probe(void);

/* What the library reads in place i of a machine: 0 for x1 to x30 and past the end. */
uint64_t koubospar_place(struct koubospar_machine machine, uint64_t i);

/* ---- sizes and places, as C has them -------------------------------------------------------------------------- */

#if defined(__cplusplus)
#define KOUBOSPAR_HOLDS(e, text) static_assert(e, text)
#else
#define KOUBOSPAR_HOLDS(e, text) _Static_assert(e, text)
#endif
KOUBOSPAR_HOLDS(sizeof(struct koubospar_region) == 24, "region");
KOUBOSPAR_HOLDS(sizeof(struct koubospar_fault) == 32, "fault");
KOUBOSPAR_HOLDS(sizeof(struct koubospar_hfi) == 320, "HFI state");
KOUBOSPAR_HOLDS(offsetof(struct koubospar_hfi, regions) == 48, "regions");
KOUBOSPAR_HOLDS(offsetof(struct koubospar_hfi, fault) == 288, "fault record");
KOUBOSPAR_HOLDS(sizeof(struct koubospar_machine) == 584, "machine");
KOUBOSPAR_HOLDS(offsetof(struct koubospar_machine, pc) == 256, "pc");
KOUBOSPAR_HOLDS(offsetof(struct koubospar_machine, hfi) == 264, "HFI state in the machine");
KOUBOSPAR_HOLDS(sizeof(struct koubospar_stop) == 16, "stop");
KOUBOSPAR_HOLDS(sizeof(struct koubospar_run_stop) == 24, "stop of a run");
KOUBOSPAR_HOLDS(sizeof(bool) == 1, "truth");
KOUBOSPAR_HOLDS(sizeof(struct koubospar_slot) == 592 && offsetof(struct koubospar_slot, stop) == 584, "slot");
KOUBOSPAR_HOLDS(sizeof(struct koubospar_scheduler) == 2392, "scheduler");
KOUBOSPAR_HOLDS(offsetof(struct koubospar_scheduler, count) == 2368, "count of slots");
KOUBOSPAR_HOLDS(offsetof(struct koubospar_scheduler, place) == 2376, "place");
KOUBOSPAR_HOLDS(offsetof(struct koubospar_scheduler, total) == 2384, "total");
KOUBOSPAR_HOLDS(sizeof(struct koubospar_turn_stop) == 32, "stop of a turn");
KOUBOSPAR_HOLDS(sizeof(struct koubospar_instruction) == 80, "instruction");
KOUBOSPAR_HOLDS(sizeof(struct koubospar_decoded) == 88, "decoded");
KOUBOSPAR_HOLDS(sizeof(struct koubospar_encoded) == 16 && offsetof(struct koubospar_encoded, word) == 8, "encoded");

#ifdef __cplusplus
}
#endif

#endif
