/* Draws numbers, and times loops in turn. Each program prints a row for each task: its section, its
 * group, its name, and the minimum time of each loop in nanoseconds of processor time for a value.
 * tests/speed reads the rows. The argument is the number of rounds. It needs _XOPEN_SOURCE. */
#include <stdint.h>
#include <stdio.h>
#include <stdlib.h>
#include <string.h>
#include <time.h>

/* The values of a loop. */
#ifndef VALUES
#define VALUES 4096
#endif
#define MAX_LOOPS 3
#define ROUNDS 201

/* A loop, and whose it is. */
struct timed {
    const char *name;
    void (*run)(void);
};

/* Hides the number and the memory from the optimizer. */
static void keep(int64_t number)
{
    __asm__ volatile("" : : "r"(number) : "memory");
}

static inline uint32_t drawn(void)
{
    static uint64_t state = 88172645463325252ULL;
    state ^= state << 13;
    state ^= state >> 7;
    state ^= state << 17;
    return (uint32_t)(state >> 32);
}

/* Returns the nanoseconds of processor time that some passes take. */
static double time_of(void (*loop)(void), int passes)
{
    struct timespec start, end;
    clock_gettime(CLOCK_PROCESS_CPUTIME_ID, &start);
    for (int pass = 0; pass < passes; pass++) {
        loop();
    }
    clock_gettime(CLOCK_PROCESS_CPUTIME_ID, &end);
    return (double)(end.tv_sec - start.tv_sec) * 1e9 + (double)(end.tv_nsec - start.tv_nsec);
}

/* Runs the loops in turn, at least a fifth of a millisecond each, and prints their row. A loop of
 * NULL has no time. */
static void compare(const char *section, const char *group, const char *task, const struct timed *loops, int rounds)
{
    double least[MAX_LOOPS];
    int passes[MAX_LOOPS];
    for (int k = 0; k < MAX_LOOPS; k++) {
        least[k] = 1e18;
        passes[k] = loops[k].run == NULL ? 0 : 1 + (int)(2e5 / (1 + time_of(loops[k].run, 1)));
    }
    for (int round = 0; round < rounds; round++) {
        for (int k = 0; k < MAX_LOOPS; k++) {
            const double time = passes[k] == 0 ? least[k] : time_of(loops[k].run, passes[k]) / passes[k];
            least[k] = time < least[k] ? time : least[k];
        }
    }
    printf("%s\t%s\t%s", section, group, task);
    for (int k = 0; k < MAX_LOOPS; k++) {
        if (passes[k] != 0) {
            printf("\t%s=%.2f", loops[k].name, least[k] / VALUES);
        }
    }
    puts("");
    fflush(stdout);
}

static int rounds_of(int argc, char **argv)
{
    return argc > 1 ? atoi(argv[1]) : ROUNDS;
}
