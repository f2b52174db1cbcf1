/* map.h: a picture of the occupied addresses. */
#ifndef MAP_H
#define MAP_H

#include "image.h"

/* Prints lines of an address and signs, each sign for equally many cells: # if all of them are marked, + for some, . for
 * none. There are at most 24 lines. They fit the columns of COLUMNS, else of the terminal, else 80. */
void print_map(const struct window *window);

#endif
