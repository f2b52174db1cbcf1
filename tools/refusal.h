/* refusal.h: the words of refusals, on standard error. */
#ifndef REFUSAL_H
#define REFUSAL_H

#include "image.h"
#include "input.h"
#include "srec.h"

/* The rows of docs/FORMAT.md that the program has more to say of, or does more about. */
enum {
    ROW_CHECKSUM = 7,
    ROW_PAST_WIDTH = 11,
    ROW_OUTSIDE = 12,
    ROW_TWICE = 13,
    ROW_NO_ROOM = 17,
    ROW_NO_ENTRY = 18,
    ROW_BLOCK = 22,
    ROW_LAST_OF_BLOCK = 24
};

/* Tells a refused load of an input: its place, the line, a caret, and what helps to mend it. */
void tell_refusal(const struct input *input, const struct window *window, const struct srec_loaded *answer);

/* Tells a refused load of a patch sheet with the symbols of an input. */
void tell_refused_sheet(const struct input *symbols, const struct input *sheet, const struct srec_loaded *answer);

/* Tells a row that has no place in a text. */
void tell_row(const char *name, uint32_t row);

/* Tells a refused write. */
void tell_refused_write(const char *name, const struct window *window, const struct srec_written *written);

#endif
