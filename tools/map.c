#include "map.h"

#include <inttypes.h>
#include <stdio.h>
#include <stdlib.h>
#include <sys/ioctl.h>
#include <unistd.h>

#include "runs.h"

enum {
    MOST_LINES = 24,
    MOST_SIGNS = 256,
    USUAL_COLUMNS = 80,
    MARGIN = 11 /* an address and what stands round the signs */
};

/* The picture's measures. A line begins at a multiple of signs * cells. */
struct scale {
    uint64_t signs; /* of a line: a power of two */
    uint64_t cells; /* of a sign: a power of two */
};

static unsigned long columns(void)
{
    const char *word = getenv("COLUMNS");
    unsigned long given = word ? strtoul(word, NULL, 10) : 0;
#ifdef TIOCGWINSZ
    struct winsize size;

    if (given == 0 && ioctl(STDOUT_FILENO, TIOCGWINSZ, &size) == 0)
        given = size.ws_col;
#endif
    return given > 0 ? given : USUAL_COLUMNS;
}

static struct scale choose_scale(uint64_t lowest, uint64_t highest)
{
    unsigned long room = columns();
    struct scale scale = {16, 1};

    while (scale.signs < MOST_SIGNS && 2 * scale.signs + MARGIN <= room)
        scale.signs *= 2;
    while (highest / (scale.signs * scale.cells) - lowest / (scale.signs * scale.cells) >= MOST_LINES)
        scale.cells *= 2;
    return scale;
}

/* How many cells from an address up to another one are marked. The run is the first that does not end before them. */
static uint64_t marked(const struct window *window, struct run *run, uint64_t from, uint64_t to)
{
    uint64_t count = 0;

    for (;;) {
        uint64_t begin = (uint64_t)window->base + run->from;
        uint64_t end = (uint64_t)window->base + run->to;
        uint64_t low = begin > from ? begin : from;
        uint64_t high = end < to ? end : to;

        count += high > low ? high - low : 0;
        if (end > to || !next_run(window, run))
            return count;
    }
}

static void print_line(const struct window *window, struct run *run, const struct scale *scale, uint64_t address)
{
    printf("%08" PRIX64 " |", address);
    for (uint64_t i = 0; i < scale->signs; i++) {
        uint64_t from = address + i * scale->cells;
        uint64_t count = marked(window, run, from, from + scale->cells);

        putchar(count == 0 ? '.' : count == scale->cells ? '#' : '+');
    }
    printf("|\n");
}

void print_map(const struct window *window)
{
    struct run run = {0, 0};
    struct run last = {0, 0};
    struct scale scale;
    uint64_t lowest;
    uint64_t highest = 0;

    if (!next_run(window, &run))
        return;
    lowest = (uint64_t)window->base + run.from;
    while (next_run(window, &last))
        highest = (uint64_t)window->base + last.to - 1;
    scale = choose_scale(lowest, highest);
    printf("map: %" PRIu64 " cell%s a sign: # all, + some, . none\n", scale.cells, scale.cells == 1 ? "" : "s");
    for (uint64_t at = lowest - lowest % (scale.signs * scale.cells); at <= highest; at += scale.signs * scale.cells)
        print_line(window, &run, &scale, at);
}
