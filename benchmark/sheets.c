/* sheets: patch sheets whose addresses are numbers, or have the last of 1,024 names. See README.md here. */
#include <stdint.h>
#include <stdio.h>
#include <stdlib.h>
#include <string.h>
#include <time.h>

#include "srec.h"

enum { CELLS = 1 << 20, SYMBOLS = 1024, BYTES = 16, MOST = 16000, ROUNDS = 15 };
/* Of a field its tag and length; of a name 16 characters, the most there are; of an address two names and a number. */
enum { HEAD = 3, NAME = 16, ADDRESS = 2 * NAME + 11 };

static uint8_t memory[CELLS], marks[CELLS], text[SYMBOLS * (NAME + 11) + 32], sheet[MOST * (2 * HEAD + ADDRESS + BYTES)];

static double now(void)
{
    struct timespec t;
    clock_gettime(CLOCK_MONOTONIC, &t);
    return t.tv_sec + 1e-9 * t.tv_nsec;
}

/* A block of so many symbols, four a line. Their names differ at the end; each has its number for a value. */
static size_t put_block(unsigned symbols)
{
    char *at = (char *)text;

    at += sprintf(at, "$$ SHEETS");
    for (unsigned i = 0; i < symbols; i++)
        at += sprintf(at, "%csymbolsymbol%04X $%X", i % 4 ? ' ' : '\n', i, i);
    at += sprintf(at, "\n$$\n");
    return (size_t)(at - (char *)text);
}

static size_t put_field(size_t at, uint8_t tag, const void *bytes, size_t length)
{
    sheet[at++] = tag;
    sheet[at++] = (uint8_t)(length >> 8);
    sheet[at++] = (uint8_t)length;
    memcpy(sheet + at, bytes, length);
    return at + length;
}

/* So many pairs, one behind the other in memory; with more than one symbol by the last, less the first, and a number. */
static size_t put_sheet(unsigned symbols, unsigned pairs)
{
    uint8_t bytes[BYTES];
    char address[ADDRESS + 1];
    size_t at = 0;

    for (unsigned i = 0; i < pairs; i++) {
        int length = symbols > 1 ? sprintf(address, "symbolsymbol%04X-symbolsymbol0000+$%X", symbols - 1, i * BYTES)
                                 : sprintf(address, "$%X", i * BYTES);
        memset(bytes, (int)(i % 255 + 1), BYTES);
        at = put_field(at, 1, address, (size_t)length);
        at = put_field(at, 2, bytes, BYTES);
    }
    return at;
}

/* Ends the program if a cell is not as the sheet says. */
static void check(struct srec_loaded got, unsigned symbols, unsigned pairs)
{
    size_t from = symbols - 1, wrong = got.reason != 0 || got.records != pairs || got.cells != (size_t)pairs * BYTES;

    for (size_t i = 0; i < CELLS; i++) {
        int inside = i >= from && i < from + (size_t)pairs * BYTES;
        wrong += marks[i] != inside || (inside && memory[i] != (i - from) / BYTES % 255 + 1);
    }
    if (wrong > 0) {
        fprintf(stderr, "%zu cells are wrong with %u symbols and %u pairs, row %u\n", wrong, symbols, pairs,
                (unsigned)got.reason);
        exit(1);
    }
}

/* The shortest of the rounds, in seconds. */
static double shortest(unsigned symbols, unsigned pairs)
{
    size_t text_len = put_block(symbols), sheet_len = put_sheet(symbols, pairs);
    double best = 1e9;

    for (int round = 0; round < ROUNDS; round++) {
        double began = now();
        struct srec_loaded got = srec_load_sheet(text, text_len, sheet, sheet_len, 0, memory, CELLS, marks, CELLS);
        double time = now() - began;
        best = time < best ? time : best;
        if (round == 0)
            check(got, symbols, pairs);
    }
    return best;
}

/* A sheet without pairs, and three with; of these the ns a pair are what they take more than that one. */
static void rows(unsigned symbols, const char *address, unsigned least)
{
    double none = shortest(symbols, 0);

    printf("| %u | 0 | - | %.2f | - |\n", symbols, 1e3 * none);
    for (unsigned pairs = least; pairs <= 16 * least; pairs *= 4) {
        double time = shortest(symbols, pairs);
        printf("| %u | %u | %s | %.2f | %.0f |\n", symbols, pairs, address, 1e3 * time, 1e9 * (time - none) / pairs);
    }
}

int main(void)
{
    printf("| symbols | pairs | each address | ms | ns a pair |\n|--:|--:|---|--:|--:|\n");
    rows(1, "a number", MOST / 16);
    rows(SYMBOLS, "the last symbol, less the first, and a number", MOST / 64);
    return 0;
}
