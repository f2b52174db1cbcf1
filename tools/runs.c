#include "runs.h"

#include <string.h>

int next_run(const struct window *window, struct run *run)
{
    size_t left = window->length - run->to;
    const uint8_t *from = left > 0 ? memchr(window->marks + run->to, 1, left) : NULL;
    const uint8_t *to;

    if (!from)
        return 0;
    run->from = (size_t)(from - window->marks);
    left = window->length - run->from;
    to = memchr(from, 0, left);
    run->to = to ? (size_t)(to - window->marks) : window->length;
    return 1;
}
