/* Loads in parts beside loads at once: the library alone, on the same texts cut in several ways. */
#include <stdio.h>
#include <stdlib.h>
#include <string.h>

#include "programs.h"
#include "srec.h"

/* crates/cuts: loads a text in parts of `cut` characters each. It is no part of include/srec.h. */
uint32_t srec_load_cut(const uint8_t *text, size_t text_len, size_t cut, uint32_t base, uint8_t *memory,
                       size_t memory_len, uint8_t *marks, size_t marks_len);

/* How a text is loaded: by srec_load, as one part, and in parts of so many characters. */
enum { AT_ONCE, ONE_PART, PARTS_64K, PARTS_4K, PARTS_256, PARTS_64, SINGLE, WAYS };
static const size_t cuts[WAYS] = {0, SIZE_MAX, 65536, 4096, 256, 64, 1};

/* The line has no data, so that a small window will do. */
enum { LINE_WINDOW = 64 };
enum { RECORDS_OF_16, RECORDS_OF_250, LINE, KINDS };
static const char *const names[KINDS] = {"records of 16", "records of 250", "one line, row 3"};

/* A text, and the best times in seconds of one load of it each way. */
struct trial {
    int kind;
    size_t mib;
    uint32_t row; /* the refusal, or 0 */
    size_t cells; /* of the window */
    struct text text;
    double best[WAYS];
};

static uint32_t load(int way, const struct trial *trial, uint8_t *memory, uint8_t *marks)
{
    const struct text *text = &trial->text;

    if (way == AT_ONCE)
        return srec_load(text->chars, text->length, BASE, memory, trial->cells, marks, trial->cells);
    return srec_load_cut(text->chars, text->length, cuts[way], BASE, memory, trial->cells, marks, trial->cells);
}

/* ---- checking ---- */

/* However a text is cut, the load must give what srec_load gives. The line is refused before anything is stored. */
static void check(const struct trial *trial)
{
    uint8_t *expected_memory = allocate_filled(trial->cells), *expected_marks = allocate_filled(trial->cells);
    uint8_t *memory = allocate_filled(trial->cells), *marks = allocate_filled(trial->cells);

    expect(load(AT_ONCE, trial, expected_memory, expected_marks) == trial->row, LIBRARY, "another row at once");
    for (int way = ONE_PART; way < WAYS; way++) {
        memset(memory, FILL, trial->cells);
        memset(marks, FILL, trial->cells);
        expect(load(way, trial, memory, marks) == trial->row, LIBRARY, "another row in parts");
        expect(memcmp(memory, expected_memory, trial->cells) == 0, LIBRARY, "other memory in parts");
        expect(memcmp(marks, expected_marks, trial->cells) == 0, LIBRARY, "other marks in parts");
    }
    free(expected_memory);
    free(expected_marks);
    free(memory);
    free(marks);
}

/* ---- timing ---- */

/* Times each way in turn, MORE times, but single characters once: they take long. */
static void measure(struct trial *trial, uint8_t *memory, uint8_t *marks)
{
    for (int again = MORE; again > 0; again--)
        for (int way = 0; way < (again == 1 ? WAYS : SINGLE); way++) {
            double start = now();
            uint32_t row = load(way, trial, memory, marks);
            double end = now();
            expect(row == trial->row, LIBRARY, "another row than before");
            keep_best(&trial->best[way], end - start);
        }
}

/* Checks and times all texts, and frees them. */
static void run(struct trial *trials, size_t number, long rounds)
{
    size_t cells = 0;

    for (size_t i = 0; i < number; i++) {
        check(&trials[i]);
        cells = trials[i].cells > cells ? trials[i].cells : cells;
    }
    uint8_t *memory = allocate_filled(cells), *marks = allocate_filled(cells);
    for (long round = 1; round <= rounds; round++) {
        print_round(round, rounds);
        for (size_t i = 0; i < number; i++)
            measure(&trials[i], memory, marks);
    }
    free(memory);
    free(marks);
    for (size_t i = 0; i < number; i++)
        free(trials[i].text.chars);
}

/* ---- tables ---- */

static struct trial trial_of(int kind, size_t mib)
{
    struct trial trial = {.kind = kind, .mib = mib};

    if (kind == LINE) {
        trial.text = generate_line(mib * MIB);
        trial.row = 3;
        trial.cells = LINE_WINDOW;
        return trial;
    }
    trial.text = generate(IN_ORDER, mib * MIB, kind == RECORDS_OF_16 ? 16 : 250);
    trial.cells = trial.text.cells;
    return trial;
}

/* ns per character of each way, and how many times as fast as at once the larger parts are. */
static void print_row(const struct trial *trial)
{
    printf("| %-15s | %zu |", names[trial->kind], trial->mib);
    for (int way = 0; way < WAYS; way++)
        printf(" %6.3f |", 1e9 * trial->best[way] / (double)trial->text.length);
    for (int way = ONE_PART; way <= PARTS_4K; way++)
        printf(" %5.2f |", trial->best[AT_ONCE] / trial->best[way]);
    printf("\n");
}

void parts(int quick, long rounds)
{
    struct trial trials[2 * KINDS] = {0};
    size_t number = 0;

    for (int kind = 0; kind < KINDS; kind++)
        for (size_t mib = 1; mib <= (quick ? 1 : 4); mib *= 4)
            trials[number++] = trial_of(kind, mib);
    run(trials, number, rounds);
    printf("\nIn parts: the library alone, ns per character of a text loaded at once, as one part, and in parts of 64 KiB, "
           "4 KiB, 256, 64 and single characters; and how many times as fast as at once it is in one part, in parts of "
           "64 KiB and of 4 KiB. Data in order.\n\n");
    printf("| text | MiB | at once | one part | 64 KiB | 4 KiB | 256 | 64 | 1 | times: one part | 64 KiB | 4 KiB |\n");
    printf("|---|--:|--:|--:|--:|--:|--:|--:|--:|--:|--:|--:|\n");
    for (size_t i = 0; i < number; i++)
        print_row(&trials[i]);
    fflush(stdout);
}
