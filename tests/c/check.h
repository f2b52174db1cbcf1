/* check.h: one line for each condition that does not hold, and the exit status. */
#ifndef CHECK_H
#define CHECK_H

#include <stdio.h>

static int failures;

static inline void check(int holds, const char *condition, int line)
{
    if (!holds) {
        printf("line %d: %s does not hold\n", line, condition);
        failures++;
    }
}

#define CHECK(condition) check((condition) ? 1 : 0, #condition, __LINE__)

#endif
