/* guess.h: where the cells of a text may lie, without a pass over it. */
#ifndef GUESS_H
#define GUESS_H

#include "input.h"
#include "srec.h"

/* The cells from the first to the last data record, where both are near the start and the end: right for texts in order
 * of addresses. It may be wrong for any other. */
struct srec_range guess_span(const struct input *input);

#endif
