/* Loads alone: texts that are refused, to see whether the time stays linear; small ones, to see what a call costs. */
#include <stdio.h>
#include <stdlib.h>
#include <string.h>

#include "programs.h"

/* The refused line has no data, so that a small window will do. The data of a small text fit the smaller window. */
enum { SMALL_WINDOW = 64, LARGE_WINDOW = 31 * 1024 };
/* A call on a small text is too short for the clock. So many are timed together. */
enum { CALLS = 1000 };

/* A load, and the best times in seconds of one call of each program. */
struct trial {
    uint32_t row; /* the refusal, or 0 */
    size_t mib;
    size_t cells; /* of the window */
    int calls;    /* how many are timed together */
    struct text text;
    double best[PROGRAMS];
};

/* ---- checking ---- */

/* Runs a program in buffers that hold nothing of an earlier run. */
static void run_afresh(int program, const struct trial *trial, uint8_t *memory, uint8_t *marks)
{
    memset(memory, FILL, trial->cells);
    memset(marks, FILL, trial->cells);
    uint32_t row = run_load(program, &trial->text, memory, marks, trial->cells);
    expect(row == trial->row, program, "not the row that was expected");
}

/* After a refusal no mark is set and memory is as before; else as many cells as there are data bytes are marked. */
static void check_library(const struct trial *trial, uint8_t *memory, uint8_t *marks)
{
    run_afresh(LIBRARY, trial, memory, marks);
    size_t marked = count_marks(marks, trial->cells);
    expect(marked == (trial->row ? 0 : trial->text.bytes), LIBRARY, "wrong number of marks");
    for (size_t i = 0; trial->row && i < trial->cells; i++)
        expect(memory[i] == FILL, LIBRARY, "memory changed by a refusal");
}

/* The twins must give what the library gives. */
static void check(const struct trial *trial)
{
    uint8_t *expected_memory = allocate_filled(trial->cells), *expected_marks = allocate_filled(trial->cells);
    uint8_t *memory = allocate_filled(trial->cells), *marks = allocate_filled(trial->cells);

    check_library(trial, expected_memory, expected_marks);
    for (int program = PLAIN; program < PROGRAMS; program++) {
        run_afresh(program, trial, memory, marks);
        expect(memcmp(memory, expected_memory, trial->cells) == 0, program, "memory is not the library's");
        expect(memcmp(marks, expected_marks, trial->cells) == 0, program, "marks are not the library's");
    }
    free(expected_memory);
    free(expected_marks);
    free(memory);
    free(marks);
}

/* ---- timing ---- */

/* Times each program once, in turn. */
static void measure(struct trial *trial, uint8_t *memory, uint8_t *marks)
{
    for (int program = 0; program < PROGRAMS; program++) {
        int wrong = 0;
        double start = now();
        for (int i = 0; i < trial->calls; i++)
            wrong |= run_load(program, &trial->text, memory, marks, trial->cells) != trial->row;
        double end = now();
        expect(!wrong, program, "another row than before");
        keep_best(&trial->best[program], (end - start) / trial->calls);
    }
}

/* Checks all texts, times each MORE times a round, and frees them. */
static void run(struct trial *trials, size_t number, long rounds)
{
    size_t cells = 0;

    for (size_t i = 0; i < number; i++) {
        check(&trials[i]);
        cells = trials[i].cells > cells ? trials[i].cells : cells;
    }
    uint8_t *memory = allocate_filled(cells), *marks = allocate_filled(cells);
    for (long round = 1; round <= rounds; round++) {
        print_round(round, rounds);
        for (size_t i = 0; i < number; i++)
            for (int again = MORE; again > 0; again--)
                measure(&trials[i], memory, marks);
    }
    free(memory);
    free(marks);
    for (size_t i = 0; i < number; i++)
        free(trials[i].text.chars);
}

/* ---- tables ---- */

/* How many times as fast as each twin the library is. */
static void print_ratios(const struct trial *trial)
{
    for (int twin = PLAIN; twin < PROGRAMS; twin++)
        printf(" %5.2f |", trial->best[twin] / trial->best[LIBRARY]);
    printf("\n");
}

static struct trial refusal(uint32_t row, size_t mib)
{
    struct trial trial = {.row = row, .mib = mib, .calls = 1};

    if (row == 3) {
        trial.text = generate_line(mib * MIB);
        trial.cells = SMALL_WINDOW;
        return trial;
    }
    trial.text = generate(IN_ORDER, mib * MIB, 16);
    trial.cells = trial.text.cells;
    spoil(&trial.text, row == 5 ? NO_DIGIT : OTHER_DIGIT);
    return trial;
}

void refusals(int quick, long rounds)
{
    static const uint32_t rows[] = {3, 5, 7};
    struct trial trials[9] = {0};
    size_t number = 0;

    for (int i = 0; i < 3; i++)
        for (size_t mib = 1; mib <= (quick ? 1 : 16); mib *= 4)
            trials[number++] = refusal(rows[i], mib);
    run(trials, number, rounds);
    printf("\nRefusals: the library's time, and how many times as fast as each twin it is. Row 3: one line without an "
           "end, of so many MiB. Rows 5 and 7: so many MiB of data, in order, records of 16 bytes; the last data "
           "record is refused.\n\n");
    printf("| row | MiB | characters | library ms | library ns/character "
           "| times plain | times table | times tuned |\n");
    printf("|--:|--:|--:|--:|--:|--:|--:|--:|\n");
    for (size_t i = 0; i < number; i++) {
        double best = trials[i].best[LIBRARY];
        size_t length = trials[i].text.length;
        printf("| %u | %2zu | %8zu | %8.3f | %5.3f |", (unsigned)trials[i].row, trials[i].mib, length, 1e3 * best,
               1e9 * best / (double)length);
        print_ratios(&trials[i]);
    }
    fflush(stdout);
}

void small_loads(long rounds)
{
    static const size_t cells[] = {SMALL_WINDOW, LARGE_WINDOW};
    struct trial trials[2] = {0};

    for (int i = 0; i < 2; i++)
        trials[i] = (struct trial){.cells = cells[i], .calls = CALLS, .text = generate_small()};
    run(trials, 2, rounds);
    printf("\nSmall loads: ns for one call, and how many times as fast as each twin the library is. A header, two data "
           "records of 16 bytes, a terminator.\n\n");
    printf("| cells | library ns | plain ns | table ns | tuned ns | times plain | times table | times tuned |\n");
    printf("|--:|--:|--:|--:|--:|--:|--:|--:|\n");
    for (int i = 0; i < 2; i++) {
        printf("| %5zu |", trials[i].cells);
        for (int program = 0; program < PROGRAMS; program++)
            printf(" %5.0f |", 1e9 * trials[i].best[program]);
        print_ratios(&trials[i]);
    }
}
