/* cost WAY PROGRAM STEPS: the first steps of a program of bench/, by one run (WAY run), by as many step calls (WAY
 * step), or by turns of one step, of one slot or of four with the same program (WAY turn1, turn4), for counting
 * instructions under valgrind --tool=callgrind. WAY none makes everything ready and calls nothing.
 * PROGRAM is its place in bench/programs.h: 0 to 4 with three regions in use, 5 to 9 the same with ten, 10 to 14 with
 * three and half-words. */
#include "koubospar.h"

#include "../bench/machine.h"
#include "../bench/programs.h"

#include <stdio.h>
#include <stdlib.h>
#include <string.h>

#define LENGTH 65536

/* Turns of one step each; how many were made. */
static uint64_t in_turn(const struct koubospar_machine *m, uint64_t slots, uint8_t *memory, uint64_t steps)
{
    static struct koubospar_scheduler s;
    uint64_t made = 0;
    s.count = slots;
    for (uint64_t n = 1; n <= slots; n++)
        koubospar_put(&s, n, m);
    while (made < steps && koubospar_turn(&s, memory, LENGTH, 1).slot != 0)
        made++;
    return made;
}

int main(int argc, char **argv)
{
    static uint8_t memory[LENGTH];
    if (argc != 4 || (size_t)atoi(argv[2]) >= sizeof programs / sizeof programs[0])
        return 2;
    const struct program *p = &programs[atoi(argv[2])];
    uint64_t steps = strtoull(argv[3], NULL, 10), made = 0;
    struct koubospar_machine m;
    memset(&m, 0, sizeof m);
    memcpy(memory, p->words, 4 * p->count); /* the host is little-endian */
    m.hfi.mode = 1;
    m.hfi.options = 1;
    memcpy(m.hfi.regions, p->regions, sizeof m.hfi.regions);
    if (strcmp(argv[1], "run") == 0)
        made = koubospar_run(&m, memory, sizeof memory, steps).count;
    if (strcmp(argv[1], "step") == 0)
        while (made < steps && koubospar_step(&m, memory, sizeof memory).stop == KOUBOSPAR_COMPLETED)
            made++;
    if (strcmp(argv[1], "turn1") == 0 || strcmp(argv[1], "turn4") == 0)
        made = in_turn(&m, argv[1][4] == '1' ? 1 : 4, memory, steps);
    printf("%llu steps, pc %llx\n", (unsigned long long)made, (unsigned long long)m.pc);
    return 0;
}
