/* place.h: where in a text something is, in the words of an editor, and the records there. */
#ifndef PLACE_H
#define PLACE_H

#include <stddef.h>
#include <stdint.h>

#include "input.h"

/* LF, CR LF and a CR alone end a line; the NUL and XOFF of a tape do not, though they end a record. */
struct spot {
    size_t line;   /* from 1 */
    size_t column; /* from 1, in bytes */
    size_t begin;  /* the index of the line's first character */
};

/* The spot of an index into an input, at most its length. */
struct spot spot_of(const struct input *input, size_t place);

/* Prints the line and a caret under the place on standard error: of a long line what is near, and a ? for every character
 * that is not printable ASCII. Prints nothing for an empty line. */
void show_spot(const struct input *input, size_t place);

/* Prints some characters in the same way, from the first on. */
void show_text(const uint8_t *bytes, size_t length);

/* The cells of a data record, which starts at a place. The record must be a good one. */
struct cells {
    uint64_t address;
    size_t count;
};

struct cells cells_at(const struct input *input, size_t place);

#endif
