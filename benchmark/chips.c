/* chips: dealing an image over chips and collecting it, beside a copy of memory and marks. See README.md here. */
#include <stdint.h>
#include <stdio.h>
#include <stdlib.h>
#include <string.h>
#include <time.h>

#include "srec.h"

enum { CELLS = 1 << 24, CHIPS = 4, ROUNDS = 15 };

static size_t cells = CELLS;

static uint8_t memory[CELLS], marks[CELLS], back[CELLS], back_marks[CELLS];
static uint8_t chip[CHIPS][CELLS / 2], chip_marks[CHIPS][CELLS / 2];

static double now(void)
{
    struct timespec t;
    clock_gettime(CLOCK_MONOTONIC, &t);
    return t.tv_sec + 1e-9 * t.tv_nsec;
}

static uint32_t deal(size_t k)
{
    size_t n = cells / k, rest = k == 4 ? n : 0;
    return srec_deal(k, 0, memory, cells, marks, cells, chip[0], n, chip_marks[0], n, chip[1], n, chip_marks[1], n, chip[2], rest,
                     chip_marks[2], rest, chip[3], rest, chip_marks[3], rest)
        .reason;
}

static uint32_t collect(size_t k)
{
    size_t n = cells / k, rest = k == 4 ? n : 0;
    return srec_collect(k, 0, back, cells, back_marks, cells, chip[0], n, chip_marks[0], n, chip[1], n, chip_marks[1], n, chip[2],
                        rest, chip_marks[2], rest, chip[3], rest, chip_marks[3], rest)
        .reason;
}

static uint32_t copy(size_t k)
{
    memcpy(back, memory, cells);
    memcpy(back_marks, marks, cells);
    __asm__ volatile("" : : "r"(back), "r"(back_marks) : "memory");
    return k != 0;
}

/* Fills the image: two of three cells are marked at random, or all. */
static void fill(int all)
{
    uint32_t x = 12;
    for (size_t i = 0; i < CELLS; i++) {
        x = x * 1664525 + 1013904223;
        memory[i] = x >> 24;
        marks[i] = all || (x >> 8) % 3 != 0;
    }
}

/* The cells that are not as rule and marks say, after a deal over k chips and a collect. */
static size_t wrong(size_t k)
{
    size_t count = 0;
    for (size_t i = 0; i < cells; i++) {
        count += chip_marks[i % k][i / k] != marks[i] || back_marks[i] != marks[i];
        count += marks[i] && (chip[i % k][i / k] != memory[i] || back[i] != memory[i]);
    }
    return count;
}

/* The shortest of the rounds. */
static double shortest(uint32_t (*run)(size_t), size_t k)
{
    double best = 1e9;
    for (int round = 0; round < ROUNDS; round++) {
        double began = now();
        if (run(k) != (run == copy))
            exit(1);
        double time = now() - began;
        best = time < best ? time : best;
    }
    return best;
}

/* A row of the table: so many cells, two of three marked or all, over k chips. */
static void row(int all, size_t k)
{
    double whole = shortest(copy, k);
    double dealt = shortest(deal, k), collected = shortest(collect, k);
    if (wrong(k)) {
        fprintf(stderr, "%zu cells are wrong with %zu chips\n", wrong(k), k);
        exit(1);
    }
    printf("| %zu | %s | %zu | %.1f | %.1f | %.2f | %.2f | %.2f |\n", cells >> 20, all ? "all" : "two of three", k, dealt / whole, collected / whole,
           1e9 * dealt / cells, 1e9 * collected / cells, 1e9 * whole / cells);
}

int main(void)
{
    printf("| MiB | marked | chips | deal, copies | collect, copies | deal, ns a cell | collect | copy |\n|--:|---|--:|--:|--:|--:|--:|--:|\n");
    for (int all = 0; all <= 1; all++) {
        fill(all);
        for (cells = 1 << 20; cells <= CELLS; cells <<= 2)
            for (size_t k = 2; k <= 4; k += 2)
                row(all, k);
    }
    return 0;
}
