/* Packed marks beside mark bytes: the library alone, on the same texts. */
#include <stdio.h>
#include <stdlib.h>
#include <string.h>

#include "programs.h"
#include "srec.h"

/* crates/packed_c: no part of include/srec.h. Cell i has bit i modulo 8 of byte i / 8. */
load_function srec_load_packed;
write_function srec_write_packed;

/* What holds the marks: a byte a cell, or a bit. */
enum { BYTES, PACKED, FORMS };
static load_function *const loads[FORMS] = {srec_load, srec_load_packed};
static write_function *const writes[FORMS] = {srec_write, srec_write_packed};

/* The window of most texts fills its last byte of bits. With so many cells more, some bits are spare. */
enum { MORE_CELLS = 3 };

/* How records stand, and how many data bytes each has. With 13 and 3 they start at any bit of a byte. */
struct kind {
    const char *name;
    enum order order;
    size_t size;
};
static const struct kind kinds[] = {
    {"in order", IN_ORDER, 16}, {"in order", IN_ORDER, 250}, {"in order", IN_ORDER, 13}, {"in order", IN_ORDER, 3},
    {"sparse", SPARSE, 16},     {"sparse", SPARSE, 250},     {"shuffled", SHUFFLED, 16}, {"shuffled", SHUFFLED, 250},
};
enum { KINDS = sizeof kinds / sizeof kinds[0], SIZES = 3 };

/* A text, and the best times in seconds of one load of it and of one write after it. */
struct trial {
    const struct kind *kind;
    size_t mib;
    struct text text;
    double load[FORMS];
    double write[FORMS];
};

/* Long enough for each text. */
struct buffers {
    uint8_t *memory;
    uint8_t *marks;
    uint8_t *out;
};

static struct buffers allocate_buffers(const struct trial *trials, size_t number)
{
    size_t cells = 0, room = 0;

    for (size_t i = 0; i < number; i++) {
        const struct text *text = &trials[i].text;
        cells = text->cells > cells ? text->cells : cells;
        room = text->room > room ? text->room : room;
    }
    cells += MORE_CELLS;
    return (struct buffers){allocate_filled(cells), allocate_filled(cells), allocate_filled(room)};
}

static void free_buffers(struct buffers *buffers)
{
    free(buffers->memory);
    free(buffers->marks);
    free(buffers->out);
}

static size_t marks_length(int form, size_t cells)
{
    return form == PACKED ? (cells + 7) / 8 : cells;
}

static uint32_t load(int form, const struct text *text, size_t cells, struct buffers *buffers)
{
    return loads[form](text->chars, text->length, BASE, buffers->memory, cells, buffers->marks,
                       marks_length(form, cells));
}

static size_t write_cells(int form, const struct text *text, size_t cells, struct buffers *buffers)
{
    return writes[form](BASE, buffers->memory, cells, buffers->marks, marks_length(form, cells), header, sizeof header,
                        0, buffers->out, text->room);
}

/* ---- checking ---- */

/* Loads a text in buffers that hold nothing of an earlier run. */
static void load_afresh(int form, const struct text *text, size_t cells, struct buffers *buffers)
{
    memset(buffers->memory, FILL, cells);
    memset(buffers->marks, FILL, cells);
    memset(buffers->out, FILL, text->room);
    uint32_t row = load(form, text, cells, buffers);
    expect(row == 0, LIBRARY, form == PACKED ? "refuses to load with packed marks" : "refuses to load");
}

static void check_marks(const uint8_t *packed, const uint8_t *bytes, size_t cells)
{
    for (size_t i = 0; i < cells; i++)
        expect((packed[i / 8] >> i % 8 & 1) == bytes[i], LIBRARY, "packed marks are not the mark bytes");
    for (size_t i = cells; i < 8 * marks_length(PACKED, cells); i++)
        expect((packed[i / 8] >> i % 8 & 1) == 0, LIBRARY, "a spare bit is set");
}

/* Packed marks must give what mark bytes give: memory, marks and canonical text. */
static void check(const struct text *text, size_t cells, struct buffers *bytes, struct buffers *packed)
{
    load_afresh(BYTES, text, cells, bytes);
    load_afresh(PACKED, text, cells, packed);
    expect(count_marks(bytes->marks, cells) == text->bytes, LIBRARY, "wrong number of marks");
    expect(memcmp(packed->memory, bytes->memory, cells) == 0, LIBRARY, "other memory with packed marks");
    check_marks(packed->marks, bytes->marks, cells);
    size_t length = write_cells(BYTES, text, cells, bytes);
    expect(length != 0, LIBRARY, "refuses to write");
    expect(write_cells(PACKED, text, cells, packed) == length, LIBRARY, "another length with packed marks");
    expect(memcmp(packed->out, bytes->out, text->room) == 0, LIBRARY, "another output with packed marks");
}

static void check_all(const struct trial *trials, size_t number, struct buffers *buffers)
{
    struct buffers bytes = allocate_buffers(trials, number);

    for (size_t i = 0; i < number; i++) {
        const struct text *text = &trials[i].text;
        check(text, text->cells, &bytes, buffers);
        check(text, text->cells + MORE_CELLS, &bytes, buffers);
    }
    free_buffers(&bytes);
}

/* ---- timing ---- */

/* Times each form once, in turn, from a form on: the first one finds less of the text in the cache. */
static void measure(struct trial *trial, struct buffers *buffers, int first)
{
    const struct text *text = &trial->text;

    for (int turn = 0; turn < FORMS; turn++) {
        int form = (first + turn) % FORMS;
        double start = now();
        uint32_t row = load(form, text, text->cells, buffers);
        double loaded = now();
        size_t length = write_cells(form, text, text->cells, buffers);
        double written = now();
        expect(row == 0 && length != 0, LIBRARY, "refuses what it accepted before");
        keep_best(&trial->load[form], loaded - start);
        keep_best(&trial->write[form], written - loaded);
    }
}

/* Checks and times all texts, and frees them. Each form is the first one in every other run of a text. */
static void run(struct trial *trials, size_t number, long rounds)
{
    struct buffers buffers = allocate_buffers(trials, number);

    check_all(trials, number, &buffers);
    for (long round = 1; round <= rounds; round++) {
        print_round(round, rounds);
        for (size_t i = 0; i < number; i++)
            for (int again = trials[i].mib < SMALL ? MORE : 1; again > 0; again--)
                measure(&trials[i], &buffers, (int)((round + again) % FORMS));
    }
    free_buffers(&buffers);
    for (size_t i = 0; i < number; i++)
        free(trials[i].text.chars);
}

/* ---- tables ---- */

/* ns per byte of data of each form, and how many times as fast as mark bytes packed marks are. */
static void print_columns(const double best[FORMS], size_t bytes)
{
    for (int form = 0; form < FORMS; form++)
        printf(" %6.3f |", 1e9 * best[form] / (double)bytes);
    printf(" %5.2f |", best[BYTES] / best[PACKED]);
}

static void print_row(const struct trial *trial)
{
    printf("| %-8s | %2zu | %3zu |", trial->kind->name, trial->mib, trial->kind->size);
    print_columns(trial->load, trial->text.bytes);
    print_columns(trial->write, trial->text.bytes);
    printf("\n");
}

void packed_marks(int quick, long rounds)
{
    struct trial trials[KINDS * SIZES] = {0};
    size_t number = 0;

    for (int k = 0; k < KINDS; k++)
        for (size_t mib = 1; mib <= (quick ? 1 : 16); mib *= 4) {
            struct text text = generate(kinds[k].order, mib * MIB, kinds[k].size);
            trials[number++] = (struct trial){.kind = &kinds[k], .mib = mib, .text = text};
        }
    run(trials, number, rounds);
    printf("\nPacked marks: the library alone, ns per byte of data of a load and of a write after it, with mark bytes "
           "and with packed marks; and how many times as fast as mark bytes packed marks are.\n\n");
    printf("| order | MiB | record | byte load | packed load | times: load "
           "| byte write | packed write | times: write |\n");
    printf("|---|--:|--:|--:|--:|--:|--:|--:|--:|\n");
    for (size_t i = 0; i < number; i++)
        print_row(&trials[i]);
    fflush(stdout);
}
