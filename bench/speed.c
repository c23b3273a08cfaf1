/* speed RUNS: times runs of the programs, with three regions in use, with ten, and with three and half-words, by both
   engines in turn, and prints the steps a second of each and the ratio. speed programs: their numbers, names and steps. speed ENGINE PROGRAM: one run, for
   counting instructions; PROGRAM from 0 on, or no run at all past the last. Every run starts from a fresh machine in locked
   HFI mode and fresh memory; only the run call is timed. Stop, steps and x10 are checked each time. */
#include "../c/koubospar.h"
#include "machine.h"
#include "programs.h"

#include <stdio.h>
#include <stdlib.h>
#include <string.h>
#include <time.h>

#define LENGTH 65536

struct engine {
    const char *name;
    run_call *run;
};

/* The proved library; its machine has the layout of the one in machine.h. */
static void proved_run(struct machine *m, uint8_t *memory, size_t length, uint64_t budget, uint64_t *answer)
{
    struct koubospar_run_stop r = koubospar_run((struct koubospar_machine *)m, memory, length, budget);
    answer[0] = r.stop;
    answer[1] = r.count;
    answer[2] = r.address;
}

_Static_assert(sizeof(struct machine) == sizeof(struct koubospar_machine), "one layout");

static const struct engine engines[] = {{"plain", plain_run}, {"proved", proved_run}};

static double now(void)
{
    struct timespec t;
    clock_gettime(CLOCK_MONOTONIC, &t);
    return (double)t.tv_sec + 1e-9 * (double)t.tv_nsec;
}

static int less(const void *a, const void *b)
{
    double x = *(const double *)a, y = *(const double *)b;
    return (x > y) - (x < y);
}

static double one_run(const struct engine *e, const struct program *p)
{
    static uint8_t memory[LENGTH];
    struct machine m;
    uint64_t answer[3];
    memset(memory, 0, sizeof memory);
    memset(&m, 0, sizeof m);
    memcpy(memory, p->words, 4 * p->count); /* the host is little-endian */
    m.mode = 1;
    m.options = 1;
    memcpy(m.regions, p->regions, sizeof m.regions);
    double start = now();
    e->run(&m, memory, sizeof memory, 1000000, answer);
    double end = now();
    if (answer[0] != p->stop || answer[1] != p->steps || answer[2] != 0 || m.x[10] != p->x10) {
        fprintf(stderr, "%s, %s: stop %llu after %llu steps, x10 %llx\n", e->name, p->name, (unsigned long long)answer[0],
                (unsigned long long)answer[1], (unsigned long long)m.x[10]);
        exit(1);
    }
    return end - start;
}

/* Times a program by both engines and prints a line. */
static void compare(const struct program *p, size_t runs)
{
    double rate[2], middle[2], steps = (double)p->steps;
    double *t = malloc(2 * runs * sizeof *t);
    for (size_t i = 0; i < runs; i++) /* in turn, so that both meet the same machine */
        for (size_t e = 0; e < 2; e++)
            t[e * runs + i] = one_run(&engines[e], p);
    for (size_t e = 0; e < 2; e++) {
        qsort(t + e * runs, runs, sizeof *t, less);
        rate[e] = steps / t[e * runs] / 1e6;
        middle[e] = steps / t[e * runs + runs / 2] / 1e6;
    }
    printf("%-14s %9.0f   %6.1f (%6.1f) M/s   %6.1f (%6.1f) M/s   %.2f (%.2f)\n", p->name, steps, rate[0], middle[0], rate[1],
           middle[1], rate[1] / rate[0], middle[1] / middle[0]);
    free(t);
}

int main(int argc, char **argv)
{
    size_t number = sizeof programs / sizeof programs[0];
    if (argc == 3) {
        size_t p = (size_t)atoi(argv[2]);
        if (p < number)
            one_run(&engines[strcmp(argv[1], "proved") == 0], &programs[p]);
        return 0;
    }
    if (argc == 2 && strcmp(argv[1], "programs") == 0) {
        for (size_t p = 0; p < number; p++)
            printf("%zu %s %llu\n", p, programs[p].name, (unsigned long long)programs[p].steps);
        return 0;
    }
    int runs = argc > 1 ? atoi(argv[1]) : 50;
    printf("program            steps   plain best (median)   proved best (median)  ratio of the best (of the medians)\n");
    for (size_t p = 0; p < number; p++)
        compare(&programs[p], runs > 0 ? (size_t)runs : 1);
    return 0;
}
