/* programs.h: the library and its twins, and what every section of the benchmark needs to check and to time them. */
#ifndef PROGRAMS_H
#define PROGRAMS_H

#include <stddef.h>
#include <stdint.h>

#include "generate.h"
#include "twin.h"

enum { MIB = 1 << 20 };
/* In a round texts below SMALL MiB run MORE times: their time is short, and a disturbance is a large part of it. */
enum { SMALL = 16, MORE = 4 };
/* Exit statuses. */
enum { UNEQUAL = 1, TROUBLE = 2 };
enum { LIBRARY, PLAIN, TABLE, TUNED, PROGRAMS };

struct program {
    const char *name;
    load_function *load;
    write_function *write;
};
extern const struct program programs[PROGRAMS];

/* Every window starts at this address. */
enum { BASE = 0 };

/* What memory, marks and output hold before a run that is checked. */
enum { FILL = 0xA5 };

/* Filled, so that no page is met for the first time while the clock runs. Ends the program if memory is short. */
uint8_t *allocate_filled(size_t length);

/* Loads a text into a window of so many cells. */
uint32_t run_load(int program, const struct text *text, uint8_t *memory, uint8_t *marks, size_t cells);

/* How many of so many marks are set. */
size_t count_marks(const uint8_t *marks, size_t cells);

/* Ends the program with UNEQUAL if a check of a program does not hold. */
void expect(int holds, int program, const char *what);

/* In seconds. */
double now(void);

/* A best time of 0 is none yet. */
void keep_best(double *best, double seconds);

/* Says on standard error which round it is, if there are more than one. */
void print_round(long round, long rounds);

/* loads.c: the sections with loads alone. */
void refusals(int quick, long rounds);
void small_loads(long rounds);

/* tapes.c: the library's tapes beside its S-records. */
void tapes(long rounds);

/* parts.c: the library's loads in parts beside its loads at once. */
void parts(int quick, long rounds);

/* overlays.c: the library's merges and looks beside hand-written C. */
void overlays(int quick, long rounds);

/* packed.c: the library's packed marks beside its mark bytes. */
void packed_marks(int quick, long rounds);

#endif
