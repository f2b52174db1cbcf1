/* options.h: the command line. */
#ifndef OPTIONS_H
#define OPTIONS_H

#include <stddef.h>
#include <stdint.h>

#include "srec.h"
#include "status.h"

/* The formats of a file: those of srec.h, and S-records behind a block of symbols. */
enum kind {
    KIND_RECORDS = SREC_RECORDS,
    KIND_TAPE_REPEAT = SREC_TAPE_REPEAT,
    KIND_TAPE_SUM = SREC_TAPE_SUM,
    KIND_SYMBOLS = SREC_RECORDS + 1
};

/* A bit for each option, for the set that a command takes. */
enum {
    OPTION_HELP = 1 << 0,
    OPTION_FROM = 1 << 1,
    OPTION_EDITION = 1 << 2,
    OPTION_WINDOW = 1 << 3,
    OPTION_ENTRY = 1 << 4,
    OPTION_OUT = 1 << 5,
    OPTION_CHIPS = 1 << 6,
    OPTION_TO = 1 << 7,
    OPTION_MAP = 1 << 8,
    OPTION_SYMBOLS = 1 << 9,
    OPTION_OVER = 1 << 10
};

struct options {
    unsigned given;      /* the bits of the options that were there */
    int has_from;        /* the format of what is read is forced */
    enum kind from;
    int read_sum;        /* a tape that is read is of the edition sum */
    uint32_t to;         /* the format that convert writes */
    int edition_sum;     /* --edition sum */
    uint32_t base;       /* the window, if it was given */
    uint64_t length;
    uint32_t entry;      /* if it was given */
    size_t chips;
    const char *out;     /* NULL for standard output */
    const char *symbols;
    const char *over;
    char **operands;     /* the words that are no options */
    int operand_count;
};

/* Reads the words behind a command. The operands are moved to the front of words. TROUBLE has been told. */
enum status read_options(char **words, int count, unsigned taken, struct options *options);

/* A number in hex digits, with or without 0x, and nothing else, up to most. Returns 0 if the word is one. */
int read_hex(const char *word, uint64_t most, uint64_t *number);

#endif
