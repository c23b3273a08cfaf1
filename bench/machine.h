/* The machine's record as document 01 has it, with the ten regions of Job 7 of
   document 02: every field 64 bits, in this order. The Rust oracle has the same layout. */
#ifndef MACHINE_H
#define MACHINE_H

#include <stddef.h>
#include <stdint.h>

/* Explicit regions are 1, 4, 5, 6; implicit data regions 2, 7, 8, 9; code regions
   3, 10. */
#define REGIONS 10

struct region {
    uint64_t base, bound, permission;
};

struct fault {
    uint64_t occurred, region, op, address;
};

struct machine {
    uint64_t x[32];
    uint64_t pc, mode, reason, exit_pc, options, handler, selector;
    struct region regions[REGIONS]; /* region n is regions[n - 1] */
    struct fault fault;
};

/* A run call: answer is stop, count, address. */
typedef void run_call(struct machine *m, uint8_t *memory, size_t length, uint64_t budget, uint64_t *answer);

/* The plain interpreter. A step's answer is stop, address. */
void plain_step(struct machine *m, uint8_t *memory, size_t length, uint64_t *answer);
void plain_run(struct machine *m, uint8_t *memory, size_t length, uint64_t budget, uint64_t *answer);

#endif
