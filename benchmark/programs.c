#define _POSIX_C_SOURCE 200809L
#include "programs.h"

#include <stdio.h>
#include <stdlib.h>
#include <string.h>
#include <time.h>

#include "srec.h"

const struct program programs[PROGRAMS] = {
    {"library", srec_load, srec_write},
    {"plain", plain_load, plain_write},
    {"table", table_load, table_write},
    {"tuned", tuned_load, tuned_write},
};

uint8_t *allocate_filled(size_t length)
{
    uint8_t *bytes = malloc(length);
    if (!bytes) {
        fputs("compare: out of memory\n", stderr);
        exit(TROUBLE);
    }
    memset(bytes, FILL, length);
    return bytes;
}

uint32_t run_load(int program, const struct text *text, uint8_t *memory, uint8_t *marks, size_t cells)
{
    return programs[program].load(text->chars, text->length, BASE, memory, cells, marks, cells);
}

size_t count_marks(const uint8_t *marks, size_t cells)
{
    size_t marked = 0;
    for (size_t i = 0; i < cells; i++)
        marked += marks[i] == 1;
    return marked;
}

void expect(int holds, int program, const char *what)
{
    if (!holds) {
        fprintf(stderr, "compare: %s: %s\n", programs[program].name, what);
        exit(UNEQUAL);
    }
}

double now(void)
{
    struct timespec time;
    clock_gettime(CLOCK_MONOTONIC, &time);
    return (double)time.tv_sec + 1e-9 * (double)time.tv_nsec;
}

void keep_best(double *best, double seconds)
{
    if (*best == 0 || seconds < *best)
        *best = seconds;
}

void print_round(long round, long rounds)
{
    if (rounds > 1)
        fprintf(stderr, "round %ld of %ld\n", round, rounds);
}
