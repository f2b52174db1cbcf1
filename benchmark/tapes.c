/* Tapes beside S-records: the library alone, on the same cells in both formats. */
#include <stdio.h>
#include <stdlib.h>
#include <string.h>

#include "programs.h"
#include "srec.h"

/* All addresses that a tape has. A call on them is short for the clock: so many are timed together. */
enum { BYTES = 1 << 16, CALLS = 20 };
enum { TAPE, RECORDS_OF_16, RECORDS_OF_24, RECORDS_OF_32, TEXTS };

/* The cells in one order: each text, and the best times in seconds of one load of it and of one write after it. */
struct trial {
    struct text texts[TEXTS];
    double load[TEXTS];
    double write[TEXTS];
};

struct buffers {
    uint8_t *memory;
    uint8_t *marks;
    uint8_t *out;
    size_t room;
};

static uint32_t load(int kind, const struct text *text, struct buffers *buffers)
{
    if (kind == TAPE)
        return srec_load_tape(SREC_REPEAT, text->chars, text->length, BASE, buffers->memory, BYTES, buffers->marks,
                              BYTES);
    return srec_load(text->chars, text->length, BASE, buffers->memory, BYTES, buffers->marks, BYTES);
}

static size_t write_cells(int kind, struct buffers *buffers)
{
    if (kind == TAPE)
        return srec_write_tape(SREC_REPEAT, BASE, buffers->memory, BYTES, buffers->marks, BYTES, buffers->out,
                               buffers->room);
    return srec_write(BASE, buffers->memory, BYTES, buffers->marks, BYTES, header, sizeof header, 0, buffers->out,
                      buffers->room);
}

/* ---- checking ---- */

/* Every text must give the same cells, and those written must be the tape and the records of 16 bytes in order. */
static void check(const struct trial *trial, const struct trial *in_order, struct buffers *buffers)
{
    uint8_t *expected = allocate_filled(BYTES);

    for (int kind = 0; kind < TEXTS; kind++) {
        const struct text *canonical = &in_order->texts[kind == TAPE ? TAPE : RECORDS_OF_16];
        memset(buffers->memory, FILL, BYTES);
        memset(buffers->marks, FILL, BYTES);
        expect(load(kind, &trial->texts[kind], buffers) == 0, LIBRARY, "refuses to load");
        expect(count_marks(buffers->marks, BYTES) == BYTES, LIBRARY, "wrong number of marks");
        if (kind == TAPE)
            memcpy(expected, buffers->memory, BYTES);
        expect(memcmp(buffers->memory, expected, BYTES) == 0, LIBRARY, "other cells in the other format");
        expect(write_cells(kind, buffers) == canonical->length, LIBRARY, "another length than the canonical text's");
        expect(memcmp(buffers->out, canonical->chars, canonical->length) == 0, LIBRARY, "not the canonical text");
    }
    free(expected);
}

/* ---- timing ---- */

static void measure(struct trial *trial, struct buffers *buffers)
{
    for (int kind = 0; kind < TEXTS; kind++) {
        int wrong = 0;
        double start = now();
        for (int i = 0; i < CALLS; i++)
            wrong |= load(kind, &trial->texts[kind], buffers) != 0;
        double loaded = now();
        for (int i = 0; i < CALLS; i++)
            wrong |= write_cells(kind, buffers) == 0;
        double written = now();
        expect(!wrong, LIBRARY, "refuses what it accepted before");
        keep_best(&trial->load[kind], (loaded - start) / CALLS);
        keep_best(&trial->write[kind], (written - loaded) / CALLS);
    }
}

/* Checks all texts, times each MORE times a round, and frees them. */
static void run(struct trial *trials, size_t number, long rounds)
{
    size_t room = trials[0].texts[RECORDS_OF_16].room;
    struct buffers buffers = {allocate_filled(BYTES), allocate_filled(BYTES), allocate_filled(room), room};

    for (size_t i = 0; i < number; i++)
        check(&trials[i], &trials[0], &buffers);
    for (long round = 1; round <= rounds; round++) {
        print_round(round, rounds);
        for (size_t i = 0; i < number; i++)
            for (int again = MORE; again > 0; again--)
                measure(&trials[i], &buffers);
    }
    free(buffers.memory);
    free(buffers.marks);
    free(buffers.out);
    for (size_t i = 0; i < number; i++)
        for (int kind = 0; kind < TEXTS; kind++)
            free(trials[i].texts[kind].chars);
}

/* ---- tables ---- */

/* A column for each of so many kinds of text, and empty ones for the others. */
static void print_row(const char *operation, const char *order, const double best[], int kinds)
{
    printf("| %-5s | %-8s |", operation, order);
    for (int kind = 0; kind < kinds; kind++)
        printf(" %5.2f |", 1e9 * best[kind] / BYTES);
    printf("%s", kinds < TEXTS ? "  |  |" : "");
    for (int kind = RECORDS_OF_16; kind < kinds; kind++)
        printf(" %5.2f |", best[kind] / best[TAPE]);
    printf("%s\n", kinds < TEXTS ? "  |  |" : "");
}

static struct trial trial_of(enum order order)
{
    static const size_t sizes[TEXTS] = {24, 16, 24, 32};
    struct trial trial = {0};

    for (int kind = 0; kind < TEXTS; kind++)
        trial.texts[kind] = generate_cells(kind == TAPE ? TAPE_LINES : S1_RECORDS, order, BYTES, sizes[kind]);
    return trial;
}

void tapes(long rounds)
{
    struct trial trials[] = {trial_of(IN_ORDER), trial_of(SHUFFLED)};

    run(trials, 2, rounds);
    printf("\nTapes beside S-records: the library alone, 64 KiB of cells; ns per byte of data, and how many times as fast "
           "as S-records a tape is. Lines of 24 bytes; S1 records of 16, 24 and 32 bytes, written with 16.\n\n");
    printf("| | order | tape | records of 16 | of 24 | of 32 | times 16 | times 24 | times 32 |\n");
    printf("|---|---|--:|--:|--:|--:|--:|--:|--:|\n");
    print_row("load", "in order", trials[0].load, TEXTS);
    print_row("load", "shuffled", trials[1].load, TEXTS);
    print_row("write", "in order", trials[0].write, RECORDS_OF_24);
}
