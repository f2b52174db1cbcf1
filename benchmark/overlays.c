/* Merges and looks beside hand-written C, on images of one window. */
#include <stdio.h>
#include <stdlib.h>
#include <string.h>

#include "programs.h"
#include "srec.h"

/* crates/overlay_c: no part of include/srec.h. */
size_t srec_look_length(uint32_t base, const uint8_t *base_memory, size_t base_memory_len, const uint8_t *base_marks,
                        size_t base_marks_len, const uint8_t *patch_memory, size_t patch_memory_len,
                        const uint8_t *patch_marks, size_t patch_marks_len, uint32_t address);

/* Every cell of the base is marked but one of 256; of the patch the first of so many. */
enum { GAP = 256 };
static const size_t strides[] = {1, 16, 4096};
enum { STRIDES = 3 };
enum { MERGE, PLAIN_MERGE, COPY, LOOK, PLAIN_LOOK, SHOWN, WAYS };

/* Two images, and the best times in seconds of each way. */
struct trial {
    size_t cells, stride;
    uint8_t *base_memory, *base_marks, *patch_memory, *patch_marks;
    double best[WAYS];
};

/* ---- hand-written C ---- */

static int all_clean(const uint8_t *marks, size_t cells)
{
    uint8_t any = 0;

    for (size_t i = 0; i < cells; i++)
        any |= marks[i];
    return any <= 1;
}

static uint32_t plain_merge(const struct trial *trial, uint8_t *memory, uint8_t *marks)
{
    if (!all_clean(marks, trial->cells) || !all_clean(trial->patch_marks, trial->cells))
        return 16;
    for (size_t i = 0; i < trial->cells; i++)
        if (trial->patch_marks[i]) {
            memory[i] = trial->patch_memory[i];
            marks[i] = 1;
        }
    return 0;
}

static size_t plain_look(const struct trial *trial, size_t from)
{
    size_t to = from;

    if (!all_clean(trial->base_marks, trial->cells) || !all_clean(trial->patch_marks, trial->cells))
        return 0;
    if (trial->patch_marks[from])
        while (to < trial->cells && trial->patch_marks[to])
            to++;
    else
        while (to < trial->cells && trial->base_marks[to] && !trial->patch_marks[to])
            to++;
    return to - from;
}

/* ---- the library ---- */

static uint32_t merge(const struct trial *trial, uint8_t *memory, uint8_t *marks)
{
    size_t n = trial->cells;

    /* Neither image has a header or an entry. */
    return srec_merge(BASE, memory, n, marks, n, NULL, 0, 0, 0, trial->patch_memory, n, trial->patch_marks, n, NULL, 0, 0, 0)
        .reason;
}

static size_t look(const struct trial *trial, size_t from)
{
    size_t n = trial->cells;

    return srec_look_length(BASE, trial->base_memory, n, trial->base_marks, n, trial->patch_memory, n,
                            trial->patch_marks, n, (uint32_t)from);
}

/* ---- checking ---- */

static void fill(struct trial *trial)
{
    size_t n = trial->cells;

    trial->base_memory = allocate_filled(n);
    trial->base_marks = allocate_filled(n);
    trial->patch_memory = allocate_filled(n);
    trial->patch_marks = allocate_filled(n);
    for (size_t i = 0; i < n; i++) {
        trial->base_memory[i] = (uint8_t)i;
        trial->base_marks[i] = i % GAP != GAP - 1;
        trial->patch_memory[i] = (uint8_t)~i;
        trial->patch_marks[i] = i % trial->stride == 0;
    }
}

static void check(const struct trial *trial, uint8_t *memory, uint8_t *marks, uint8_t *other, uint8_t *other_marks)
{
    size_t n = trial->cells;

    memcpy(memory, trial->base_memory, n);
    memcpy(marks, trial->base_marks, n);
    memcpy(other, trial->base_memory, n);
    memcpy(other_marks, trial->base_marks, n);
    expect(merge(trial, memory, marks) == 0 && plain_merge(trial, other, other_marks) == 0, LIBRARY, "a refused merge");
    expect(memcmp(memory, other, n) == 0, LIBRARY, "other memory merged");
    expect(memcmp(marks, other_marks, n) == 0, LIBRARY, "other marks merged");
    for (size_t from = 0; from < 2 * GAP; from++)
        expect(look(trial, from) == plain_look(trial, from), LIBRARY, "another run");
}

/* ---- timing ---- */

static void time_merges(struct trial *trial, uint8_t *memory, uint8_t *marks)
{
    for (int way = MERGE; way <= COPY; way++) {
        memcpy(memory, trial->base_memory, trial->cells);
        memcpy(marks, trial->base_marks, trial->cells);
        double start = now();
        if (way == MERGE)
            merge(trial, memory, marks);
        else if (way == PLAIN_MERGE)
            plain_merge(trial, memory, marks);
        else {
            memcpy(memory, trial->patch_memory, trial->cells);
            memcpy(marks, trial->patch_marks, trial->cells);
        }
        keep_best(&trial->best[way], now() - start);
    }
}

/* A look at cell 1, whose run is short, and one at 0 where the patch has every cell: it shows all of them. */
static void time_looks(struct trial *trial)
{
    for (int way = LOOK; way <= SHOWN; way++) {
        size_t from = way == SHOWN ? 0 : 1;
        double start = now();
        size_t length = way == PLAIN_LOOK ? plain_look(trial, from) : look(trial, from);
        double end = now();
        expect(length > 0, LIBRARY, "an empty run");
        keep_best(&trial->best[way], end - start);
    }
}

/* ---- tables ---- */

static void print_row(const struct trial *trial)
{
    printf("| %zu | 1 in %zu |", trial->cells / MIB, trial->stride);
    for (int way = 0; way < WAYS; way++)
        printf(" %6.3f |", 1e9 * trial->best[way] / (double)trial->cells);
    printf(" %5.2f | %5.2f |\n", trial->best[PLAIN_MERGE] / trial->best[MERGE], trial->best[PLAIN_LOOK] / trial->best[LOOK]);
}

static void run(struct trial *trial, long rounds)
{
    uint8_t *memory = allocate_filled(trial->cells), *marks = allocate_filled(trial->cells);
    uint8_t *other = allocate_filled(trial->cells), *other_marks = allocate_filled(trial->cells);

    fill(trial);
    check(trial, memory, marks, other, other_marks);
    for (long round = 0; round < MORE * rounds; round++) {
        time_merges(trial, memory, marks);
        time_looks(trial);
    }
    free(memory);
    free(marks);
    free(other);
    free(other_marks);
    free(trial->base_memory);
    free(trial->base_marks);
    free(trial->patch_memory);
    free(trial->patch_marks);
}

void overlays(int quick, long rounds)
{
    printf("\nOverlays: ns per cell of the window, of a merge by the library, by hand-written C, and of a copy of memory and "
           "marks; of a look at cell 1 by the library and by hand-written C, and of a look at cell 0; and how many times as "
           "fast as hand-written C merge and look are.\n\n");
    printf("| MiB | patch marks | merge | C | copy | look at 1 | C | look at 0 | times: merge | look |\n");
    printf("|--:|--:|--:|--:|--:|--:|--:|--:|--:|--:|\n");
    for (size_t mib = 1; mib <= (quick ? 1 : 16); mib *= 16)
        for (int s = 0; s < STRIDES; s++) {
            struct trial trial = {.cells = mib * MIB, .stride = strides[s]};
            run(&trial, rounds);
            print_row(&trial);
        }
    fflush(stdout);
}
