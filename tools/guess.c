#include "guess.h"

#include "place.h"

/* How many records at either end are looked at: a header, a count and a terminator may stand there. */
enum { NEAR = 4 };

static int ends_record(const struct input *input, size_t i)
{
    return input->bytes[i] == '\r' || input->bytes[i] == '\n';
}

static struct cells cells_if_data(const struct input *input, size_t place)
{
    const struct cells none = {0, 0};
    const uint8_t *record = input->bytes + place;

    if (input->length - place < 2 || record[0] != 'S' || record[1] < '1' || record[1] > '3')
        return none;
    return cells_at(input, place);
}

static struct cells first_cells(const struct input *input)
{
    struct cells cells = {0, 0};
    size_t i = input->start;

    for (int n = 0; n < NEAR && cells.count == 0; n++) {
        while (i < input->length && ends_record(input, i))
            i++;
        cells = cells_if_data(input, i);
        while (i < input->length && !ends_record(input, i))
            i++;
    }
    return cells;
}

static struct cells last_cells(const struct input *input)
{
    struct cells cells = {0, 0};
    size_t i = input->length;

    for (int n = 0; n < NEAR && cells.count == 0; n++) {
        while (i > input->start && ends_record(input, i - 1))
            i--;
        while (i > input->start && !ends_record(input, i - 1))
            i--;
        cells = cells_if_data(input, i);
    }
    return cells;
}

struct srec_range guess_span(const struct input *input)
{
    struct srec_range span = {0, 0, 0};
    struct cells first;
    struct cells last;

    if (format_of(input->kind) != SREC_RECORDS)
        return span;
    first = first_cells(input);
    last = last_cells(input);
    if (first.count > 0 && last.count > 0 && first.address < last.address + last.count) {
        span.any = 1;
        span.lowest = first.address;
        span.highest = last.address + last.count - 1;
    }
    return span;
}
