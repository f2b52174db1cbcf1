/* answer.h: what the whole answer of a load, and of a write, must be. */
#ifndef ANSWER_H
#define ANSWER_H

#include <string.h>

#include "check.h"
#include "srec.h"

/* The answer of a refusal: all that it does not speak of is 0. */
static inline struct srec_loaded refusal(uint32_t reason, uint32_t want, size_t record, size_t place)
{
    struct srec_loaded answer;
    memset(&answer, 0, sizeof answer);
    answer.reason = reason;
    answer.want = want;
    answer.record = record;
    answer.place = place;
    return answer;
}

/* The answer of an accepted load without header and entry. */
static inline struct srec_loaded accepted(size_t records, size_t cells)
{
    struct srec_loaded answer = refusal(0, 0, 0, 0);
    answer.records = records;
    answer.cells = cells;
    return answer;
}

/* The same with an entry, and with a header of so many bytes. */
static inline struct srec_loaded titled(struct srec_loaded answer, const void *header, size_t header_len, uint32_t entry)
{
    if (header_len > 0)
        memcpy(answer.header, header, header_len);
    answer.header_len = header_len;
    answer.has_entry = 1;
    answer.entry = entry;
    return answer;
}

/* Every field, so that a failure says which. */
static inline void check_loaded(struct srec_loaded got, struct srec_loaded want, int line)
{
    check(got.reason == want.reason, "reason", line);
    check(got.want == want.want, "want", line);
    check(got.record == want.record, "record", line);
    check(got.place == want.place, "place", line);
    check(got.records == want.records, "records", line);
    check(got.cells == want.cells, "cells", line);
    check(got.has_entry == want.has_entry, "has_entry", line);
    check(got.entry == want.entry, "entry", line);
    check(got.header_len == want.header_len, "header_len", line);
    check(memcmp(got.header, want.header, sizeof got.header) == 0, "header", line);
}

static inline void check_written(struct srec_written got, uint32_t reason, size_t place, size_t length, int line)
{
    check(got.reason == reason, "reason", line);
    check(got.place == place, "place", line);
    check(got.length == length, "length", line);
}

#define LOADED(got, want) check_loaded(got, want, __LINE__)
#define WRITTEN(got, reason, place, length) check_written(got, reason, place, length, __LINE__)

/* Whether so many bytes are all the same. */
static inline int all(const uint8_t *bytes, size_t length, uint8_t byte)
{
    for (size_t i = 0; i < length; i++)
        if (bytes[i] != byte)
            return 0;
    return 1;
}

#endif
