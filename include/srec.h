/* srec.h: Motorola S-records and MOS Technology paper tapes into lent memory, and an image back as one canonical S-record
 * text or one canonical tape; patches over a base, images over chips, and patch sheets by symbol names.
 *
 * Link with libsrec.a (`make` writes target/libsrec.a), on x86-64. C99 or later, or C++. No heap, no global state, nothing is printed.
 *
 * A window is a base address and two buffers of one length: memory[i] is the cell at address base + i, and marks[i] is
 * 1 if that cell was addressed by the text, else 0.
 *
 * Every pointer is to a buffer of the length that follows it. A buffer of length 0 may have any pointer, NULL too: it is
 * not read. Buffers that a call changes must not overlap each other or any other buffer of the same call. There is no other
 * precondition: every function ends and does nothing undefined, whatever buffers and numbers hold.
 *
 * A load or a write is refused by the first row of docs/FORMAT.md that applies; srec_reason below has the words of each.
 * A refused load leaves memory unchanged (but for a load in parts: see there) and every mark 0; a refused write leaves out
 * unchanged.
 *
 * Example: how many cells of a 32 KiB ROM at address 8000 hex the text on standard input fills.
 *
 *     #include <stdio.h>
 *     #include "srec.h"
 *
 *     static uint8_t text[1 << 20], rom[0x8000], marks[0x8000];
 *
 *     int main(void)
 *     {
 *         size_t length = fread(text, 1, sizeof text, stdin);
 *         struct srec_loaded got =
 *             srec_load_as(SREC_RECORDS, text, length, 0x8000, rom, sizeof rom, marks, sizeof marks);
 *         if (got.reason != 0) {
 *             printf("record %zu at %zu: %s\n", got.record, got.place, srec_reason(got.reason));
 *             return 1;
 *         }
 *         printf("%zu of %zu cells\n", got.cells, sizeof rom);
 *         return 0;
 *     }
 */
#ifndef SREC_H
#define SREC_H

#include <stddef.h>
#include <stdint.h>

#define SREC_VERSION "1.0"

#ifdef __cplusplus
extern "C" {
#endif

/* ---- the whole answer */

/* The formats. Those of tapes have the numbers of their editions, SREC_REPEAT and SREC_SUM below; any other number is taken
 * for S-records. */
enum {
    SREC_TAPE_REPEAT = 0, /* a paper tape whose last line has its number again for a check */
    SREC_TAPE_SUM = 1,    /* a paper tape whose last line has the sum of its bytes, as the KIM-1 manual asks for */
    SREC_RECORDS = 2      /* Motorola S-records */
};

/* The answer of a load, and of a merge, a deal and a collect, whose other fields are 0. Where nothing is refused `want`,
 * `record` and `place` are 0; after a refusal all that stands behind them is 0.
 *
 *   record   of a load the record, line or field that is refused, from 1; for rows 14 and 20, and for a block without its
 *            last `$$`, how many were read; 0 for row 1, and of a merge, a deal and a collect
 *   place    of a load the index of its first character, for row 5 of the character that is no digit; for row 14, and for a
 *            block without its last `$$`, the text's length; for row 20 how many characters stood before the part; of a
 *            merge, a deal and a collect, for row 16, the index of the mark; otherwise 0
 */
struct srec_loaded {
    uint32_t reason;     /* the row that refuses, 0 for accepted */
    uint32_t want;       /* row 7 of S-records: the checksum that would be right; otherwise 0 */
    size_t record;       /* see above */
    size_t place;        /* see above */
    size_t records;      /* data records */
    size_t cells;        /* cells loaded */
    uint32_t has_entry;  /* 1 if there is an entry, else 0 */
    uint32_t entry;      /* the entry, 0 if there is none */
    size_t header_len;   /* how many bytes the header has, at most 252 */
    uint8_t header[252]; /* the header; 0 behind its length */
};

/* The answer of a write. */
struct srec_written {
    uint32_t reason; /* the row that refuses, 0 for accepted */
    size_t place;    /* row 16, and row 11 of a tape: the index of the mark; row 17: the length needed; otherwise 0 */
    size_t length;   /* of the text; 0 after a refusal */
};

/* The addresses that data records address. */
struct srec_range {
    uint32_t any;     /* 1 if they address a cell, else 0, and then both are 0 */
    uint64_t lowest;  /* the lowest address */
    uint64_t highest; /* the highest; above FFFFFFFF only in a patch sheet, and then no window covers it */
};

/* A record that addresses a cell. */
struct srec_origin {
    size_t record; /* its number, from 1; 0 for none, and then all are 0 */
    size_t place;  /* the index of its first character */
    uint32_t byte; /* the byte that it gives the cell */
};

/* Loads a text of a format into a window, as srec_load does. */
struct srec_loaded srec_load_as(uint32_t format, const uint8_t *text, size_t text_len, uint32_t base, uint8_t *memory,
                                size_t memory_len, uint8_t *marks, size_t marks_len);

/* Writes the canonical text of a window in a format at the start of out, as srec_write does. S-records are refused by 1, 15,
 * 16, 18 or 17, a tape by 1, 16, 19, 11 or 17, tried in this order. has_entry is 0 for no entry. */
struct srec_written srec_write_as(uint32_t format, uint32_t base, const uint8_t *memory, size_t memory_len,
                                  const uint8_t *marks, size_t marks_len, const uint8_t *header, size_t header_len,
                                  uint32_t has_entry, uint32_t entry, uint8_t *out, size_t out_len);

/* What srec_write_as would answer if the output were just long enough: the length that the canonical text needs, or the
 * row that refuses the write. */
struct srec_written srec_room(uint32_t format, uint32_t base, const uint8_t *memory, size_t memory_len,
                              const uint8_t *marks, size_t marks_len, const uint8_t *header, size_t header_len,
                              uint32_t has_entry, uint32_t entry);

/* The lowest and the highest address that the data records of a text address, up to the first record that a row other than
 * 12 and 13 refuses. In a window that covers them row 12 is never given; if there are none, a window of no cells will do.
 * Of a text with a symbol block hand in what stands from srec_behind on.
 *
 *     struct srec_range span = srec_span(SREC_RECORDS, text, length);
 *     size_t cells = span.any ? span.highest - span.lowest + 1 : 0;
 *     uint8_t *memory = calloc(cells + 1, 1), *marks = malloc(cells + 1);
 *     got = srec_load_as(SREC_RECORDS, text, length, span.lowest, memory, cells, marks, cells);
 */
struct srec_range srec_span(uint32_t format, const uint8_t *text, size_t text_len);

/* The first record of a text, up to the first that a row other than 12 and 13 refuses, that addresses the cell at an
 * address. After a refusal 13 at record n one of the cells of that record has an origin before n. */
struct srec_origin srec_where(uint32_t format, const uint8_t *text, size_t text_len, uint32_t address);

/* ---- patches, chips, symbols */

/* Lays a patch into a base, both windows from the same base address and of one length: marked cells of the patch win, all
 * other bytes and marks stay, and so do header and entry unless the patch has its own. The answer has the merged header
 * and entry, or row 1, 15 or 16, tried in this order, the marks of the base before those of the patch. A refused merge
 * changes nothing. */
struct srec_loaded srec_merge(uint32_t base, uint8_t *memory, size_t memory_len, uint8_t *marks, size_t marks_len,
                              const uint8_t *header, size_t header_len, uint32_t has_entry, uint32_t entry,
                              const uint8_t *patch_memory, size_t patch_memory_len, const uint8_t *patch_marks,
                              size_t patch_marks_len, const uint8_t *patch_header, size_t patch_header_len,
                              uint32_t patch_has_entry, uint32_t patch_entry);

/* Deals a window over 2 or 4 chips: the cell at address A goes to chip A modulo chips, at A / chips. Each chip's buffers
 * have memory_len / chips bytes, and those of chips that are not used length 0. Refused by 21, 1 or 16, tried in this order,
 * and then nothing is changed; otherwise every mark of the chips is written, and the bytes of unmarked cells stay. */
struct srec_loaded srec_deal(size_t chips, uint32_t base, const uint8_t *memory, size_t memory_len,
                             const uint8_t *marks, size_t marks_len, uint8_t *memory0, size_t memory0_len,
                             uint8_t *marks0, size_t marks0_len, uint8_t *memory1, size_t memory1_len, uint8_t *marks1,
                             size_t marks1_len, uint8_t *memory2, size_t memory2_len, uint8_t *marks2,
                             size_t marks2_len, uint8_t *memory3, size_t memory3_len, uint8_t *marks3,
                             size_t marks3_len);

/* Collects 2 or 4 chips into a window, as srec_deal deals. The place of row 16 is an index in the first chip that has a bad
 * mark; which one is not told. */
struct srec_loaded srec_collect(size_t chips, uint32_t base, uint8_t *memory, size_t memory_len, uint8_t *marks,
                                size_t marks_len, const uint8_t *memory0, size_t memory0_len, const uint8_t *marks0,
                                size_t marks0_len, const uint8_t *memory1, size_t memory1_len, const uint8_t *marks1,
                                size_t marks1_len, const uint8_t *memory2, size_t memory2_len, const uint8_t *marks2,
                                size_t marks2_len, const uint8_t *memory3, size_t memory3_len, const uint8_t *marks3,
                                size_t marks3_len);

/* Loads the S-records that stand behind the symbol block at a text's start. Rows 22 to 24 are those of the block; record and
 * place of the others count from srec_behind on, right behind the block's last `$$`, whose line end has the place 0. */
struct srec_loaded srec_load_behind(const uint8_t *text, size_t text_len, uint32_t base, uint8_t *memory,
                                    size_t memory_len, uint8_t *marks, size_t marks_len);

/* Loads a patch sheet, with the symbols of the block at a text's start, as an image that srec_merge can lay over a base.
 * Rows 22 to 24 are those of the block, with lines and places of the text; 25 to 27, 12 and 13 those of the sheet, with
 * fields and places of the sheet. */
struct srec_loaded srec_load_sheet(const uint8_t *text, size_t text_len, const uint8_t *sheet, size_t sheet_len,
                                   uint32_t base, uint8_t *memory, size_t memory_len, uint8_t *marks,
                                   size_t marks_len);

/* Where the S-records begin behind the symbol block at a text's start; the text's length, if the block is refused. */
size_t srec_behind(const uint8_t *text, size_t text_len);

/* As srec_span, for the pairs of a patch sheet before the first field that one of rows 25 to 27 refuses; no cell, if the
 * block is refused. */
struct srec_range srec_span_sheet(const uint8_t *text, size_t text_len, const uint8_t *sheet, size_t sheet_len);

/* ---- S-records in parts, as they arrive */

/* The state of a load in parts between two calls: what one call gives back is handed to the next as it is. While `reason` is
 * 0 a caller may read total, number, records and cells; after a refusal reason, want, record and place. All else is for the
 * calls alone, and may differ between two equal loads, as may the padding. No content makes a call do anything undefined. */
struct srec_parts {
    uint32_t reason;    /* of a refused load the row, otherwise 0 */
    uint8_t want;       /* as in srec_loaded */
    uint8_t ended;      /* not 0 behind the terminator */
    uint32_t has_entry; /* the terminator's entry */
    uint32_t entry;
    size_t record; /* as in srec_loaded */
    size_t place;
    size_t size;    /* the memory's length at the beginning */
    size_t total;   /* characters so far */
    size_t begins;  /* where the record begins that is not complete */
    size_t number;  /* records so far */
    size_t records; /* data records so far */
    size_t cells;   /* cells so far */
    size_t head;    /* the header's length */
    size_t held;    /* how many characters of the record that is not complete are held */
    uint8_t header[252]; /* the header's bytes */
    uint8_t line[516];   /* the held characters */
};

/* What ended a load: its answer, and the state behind it. */
struct srec_ended {
    struct srec_loaded loaded;
    struct srec_parts parts;
};

/* Begins a load in parts: row 1, and all marks are cleared. */
struct srec_parts srec_begin(uint32_t base, const uint8_t *memory, size_t memory_len, uint8_t *marks, size_t marks_len);

/* Takes one more part of the text, of any length, with the same window: row 1 refuses another length of memory. A record is
 * stored as soon as its line end has arrived, so after a refusal memory keeps the records before the refused one; every mark
 * is then 0. Row 20 refuses a part that would bring the text past 4,294,967,295 characters. Behind a refusal a call changes
 * nothing. */
struct srec_parts srec_feed(struct srec_parts parts, const uint8_t *part, size_t part_len, uint32_t base, uint8_t *memory,
                            size_t memory_len, uint8_t *marks, size_t marks_len);

/* Ends a load in parts. If states, memory and marks came back as they were given out and row 20 was not given, the answer is
 * that of srec_load_as(SREC_RECORDS, ..) for the whole text, wherever it was cut. Further calls go on from the state that is
 * given back: a refused end stays refused. */
struct srec_ended srec_end(struct srec_parts parts, uint32_t base, uint8_t *memory, size_t memory_len, uint8_t *marks,
                           size_t marks_len);

/* ---- the row alone */

/* Loads a text into a window. Returns 0 if the text is accepted, else the number of the row (1 to 14, never 9) that refuses it.
 *
 *   text, text_len        the S-record text; lines end in CR, LF or both, and the last need not end
 *   base                  the address of memory[0]
 *   memory, memory_len    addressed cells get their data byte; all others keep theirs. Unchanged after a refusal
 *   marks, marks_len      1 for each addressed cell, else 0, whatever they held before. All 0 after a refusal
 */
uint32_t srec_load(const uint8_t *text, size_t text_len, uint32_t base, uint8_t *memory, size_t memory_len,
                   uint8_t *marks, size_t marks_len);

/* Writes the canonical text of a window at the start of out. Returns its length, or 0 if a row (1, 15, 16 or 17) refuses
 * it; a canonical text is never empty. After a refusal out is unchanged. Bytes of out behind the text are unchanged.
 * Row 18, an image without an entry, never comes up here: the entry is always given, and 0 is an entry like any other.
 *
 *   base, memory, memory_len, marks, marks_len   the window; each mark is 0 or 1
 *   header, header_len                           the header's bytes, at most 252
 *   entry                                        the address where execution starts
 *   out, out_len                                 11 + 2 * header_len + 15 * records + 2 * cells + 26 bytes are always enough,
 *                                                where records is at most cells
 */
size_t srec_write(uint32_t base, const uint8_t *memory, size_t memory_len, const uint8_t *marks, size_t marks_len,
                  const uint8_t *header, size_t header_len, uint32_t entry, uint8_t *out, size_t out_len);

/* The editions of a paper tape: what its last line has for a check. Both load and write the same tapes of fewer than 256
 * data lines. */
enum {
    SREC_REPEAT = 0, /* its number again */
    SREC_SUM = 1     /* the sum of its bytes, as the KIM-1 manual asks for */
};

/* Loads a paper tape of an edition into a window. Returns 0 if the tape is accepted, else the number of the row that
 * refuses it: 1 to 7 or 10 to 14, never 8 and 9. Row 3 is for a line of more than 521 characters, row 7 for a check that is
 * wrong, of the last line by the edition, row 10 for a last line with another number than that of the data lines before it,
 * row 11 for data above FFFF, row 14 for a tape without a last line.
 *
 *   edition               SREC_REPEAT; any other number is taken for SREC_SUM
 *   text, text_len        the tape; lines end in CR, LF, NUL or XOFF (13 hex), and the last need not end
 *   base                  the address of memory[0]; the window may pass FFFF, or lie above it
 *   memory, memory_len    as for srec_load
 *   marks, marks_len      as for srec_load
 */
uint32_t srec_load_tape(uint32_t edition, const uint8_t *text, size_t text_len, uint32_t base, uint8_t *memory,
                        size_t memory_len, uint8_t *marks, size_t marks_len);

/* Writes the canonical tape of a window, in an edition, at the start of out. Returns its length, or 0 if a row (1, 16, 11
 * or 17) refuses it; a canonical tape is never empty. After a refusal out is unchanged. Bytes of out behind the tape are
 * unchanged. Row 11 is for a marked cell above FFFF. A tape has no header and no entry, and none can be given: row 19
 * never comes up.
 *
 *   edition                                      as for srec_load_tape
 *   base, memory, memory_len, marks, marks_len   the window; each mark is 0 or 1
 *   out, out_len                                 13 * (lines + 1) + 2 * cells bytes are always enough, where lines is at
 *                                                most cells
 */
size_t srec_write_tape(uint32_t edition, uint32_t base, const uint8_t *memory, size_t memory_len, const uint8_t *marks,
                       size_t marks_len, uint8_t *out, size_t out_len);

/* The words for a row, or for 0; NULL for a number that is no row. */
static inline const char *srec_reason(unsigned number)
{
    static const char *const words[] = {
        "accepted",
        "the lengths of the buffers do not agree, or the window passes 2^32",
        "a record stands after the terminator, or a line after the tape's last",
        "the record has more than 514 characters, or the tape's line more than 521",
        "the record is no S-record of a known type, or no line of a tape",
        "a character is no hex digit",
        "the record's length does not agree with its count or type, or the line's with its length field",
        "the checksum is wrong",
        "a header record is not the first record",
        "reserved: never given any more",
        "the count record, or the tape's last line, does not agree with the data before it",
        "the data passes the end of the record's address width, or FFFF on a tape",
        "some data lies outside the window",
        "a cell is addressed twice",
        "there is no terminator, or the tape has no last line",
        "the header has more than 252 bytes",
        "a mark is neither 0 nor 1",
        "the output is too short for the text or tape",
        "the image has no entry",
        "a tape holds neither a header nor an entry",
        "a part would bring the text past 4,294,967,295 characters",
        "there are not two or four chips, or the base or the length is no multiple of their number",
        "a line is none of a symbol block, or the block has no last line $$",
        "a symbol's name stands twice in the block",
        "the block has more than 1,024 symbols",
        "a field of a patch sheet is bad, or its address is no expression",
        "a name in an expression is no symbol",
        "a result in an expression is below 0 or above 4,294,967,295",
    };
    return number < sizeof words / sizeof words[0] ? words[number] : NULL;
}

#ifdef __cplusplus
}
#endif

#endif
