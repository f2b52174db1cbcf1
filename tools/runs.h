/* runs.h: the runs of marked cells of a window. */
#ifndef RUNS_H
#define RUNS_H

#include <stddef.h>

#include "image.h"

/* Cells from an index up to another, which is not one of them. */
struct run {
    size_t from;
    size_t to;
};

/* Makes a run the next longest one behind it. Returns 0, and changes nothing, if there is none. Begin with {0, 0}. */
int next_run(const struct window *window, struct run *run);

#endif
