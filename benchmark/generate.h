/* generate.h: S-record texts and tapes to measure with, the same ones in every run. */
#ifndef GENERATE_H
#define GENERATE_H

#include <stddef.h>
#include <stdint.h>

/* How data records stand: by rising address; the same, with a hole of three records behind each; in random order. */
enum order { IN_ORDER, SPARSE, SHUFFLED };

struct text {
    uint8_t *chars;
    size_t length;
    size_t bytes; /* data bytes, in all records */
    size_t cells; /* the length of the smallest window from address 0 on that holds them */
    size_t room;  /* enough for the canonical text */
    size_t last;  /* where the last data record starts */
};

/* Every text but a line and a tape has this header and entry 0. */
extern const uint8_t header[3];

/* A text of so many data bytes, at least 1, in S3 records of `size` data bytes, 1 to 250; the last may be shorter. Ends
 * the program if memory is short. The characters are the caller's to free. */
struct text generate(enum order order, size_t bytes, size_t size);

/* The same for cells from address 0 on, at most 65,536, in lines of a tape or in S1 records. A cell's byte depends on its
 * address alone. In order the tape is canonical with lines of 24 data bytes, the text with records of 16. */
enum layout { TAPE_LINES, S1_RECORDS };
struct text generate_cells(enum layout layout, enum order order, size_t bytes, size_t size);

/* The same for a header, two data records of 16 bytes from address 0 on and a terminator. */
struct text generate_small(void);

/* The same for one line of so many characters, at least 2: S3 and digits, without a line end. It has no data. */
struct text generate_line(size_t length);

/* Changes the first data digit of the last data record: into a character that is no digit, or into another digit, so
 * that the checksum is wrong. */
enum fault { NO_DIGIT, OTHER_DIGIT };
void spoil(struct text *text, enum fault fault);

#endif
