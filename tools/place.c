#include "place.h"

#include <stdio.h>

/* How many characters of a line are shown. */
enum { SHOWN = 78 };

static int ends_line(uint8_t byte)
{
    return byte == '\r' || byte == '\n';
}

struct spot spot_of(const struct input *input, size_t place)
{
    const uint8_t *bytes = input->bytes;
    struct spot spot = {1, 1, 0};

    for (size_t i = 0; i < place; i++) {
        int before_lf = i + 1 < input->length && bytes[i + 1] == '\n';

        if (bytes[i] == '\n' || (bytes[i] == '\r' && !before_lf)) {
            spot.line++;
            spot.begin = i + 1;
        }
    }
    spot.column = place - spot.begin + 1;
    return spot;
}

static int shown(uint8_t byte)
{
    return byte >= 0x20 && byte < 0x7F ? byte : '?';
}

static void show_part(const uint8_t *bytes, size_t length, int cut_before, int cut_behind)
{
    fprintf(stderr, "  %s", cut_before ? "..." : "");
    for (size_t i = 0; i < length; i++)
        fputc(shown(bytes[i]), stderr);
    fprintf(stderr, "%s\n", cut_behind ? "..." : "");
}

void show_text(const uint8_t *bytes, size_t length)
{
    show_part(bytes, length < SHOWN ? length : SHOWN, 0, length > SHOWN);
}

/* Is a place among the first characters of a line that are shown, or right behind a line of so many? */
static int is_near(const struct input *input, size_t begin, size_t place)
{
    int at_end = place == input->length || ends_line(input->bytes[place]);

    return place - begin < SHOWN || (place - begin == SHOWN && at_end);
}

void show_spot(const struct input *input, size_t place)
{
    size_t begin = spot_of(input, place).begin;
    size_t from = is_near(input, begin, place) ? begin : place - SHOWN / 2;
    size_t to = from;

    while (to < input->length && !ends_line(input->bytes[to]) && to - from <= SHOWN)
        to++;
    if (to == begin)
        return;
    if (to - from > SHOWN)
        show_part(input->bytes + from, SHOWN, from > begin, 1);
    else
        show_part(input->bytes + from, to - from, from > begin, 0);
    fprintf(stderr, "%*s^\n", (int)(place - from) + (from > begin ? 5 : 2), "");
}

static unsigned digit_of(uint8_t c)
{
    if (c >= '0' && c <= '9')
        return c - '0';
    return ((c | 0x20U) - 'a' + 10) & 15;
}

/* The number of some digits from an index on, of those that there are. */
static uint64_t number_at(const struct input *input, size_t from, size_t digits)
{
    uint64_t number = 0;

    for (size_t i = from; i < from + digits && i < input->length; i++)
        number = number * 16 + digit_of(input->bytes[i]);
    return number;
}

struct cells cells_at(const struct input *input, size_t place)
{
    int is_tape = input->kind == KIND_TAPE_REPEAT || input->kind == KIND_TAPE_SUM;
    struct cells cells;

    if (is_tape) {
        /* `;`, length, address */
        cells.count = (size_t)number_at(input, place + 1, 2);
        cells.address = number_at(input, place + 3, 4);
    } else {
        /* `S`, type, count, address: an S1 has two address bytes, an S2 three, an S3 four, and there is a checksum */
        size_t width = (size_t)number_at(input, place + 1, 1) + 1;
        size_t count = (size_t)number_at(input, place + 2, 2);

        cells.count = count > width + 1 ? count - width - 1 : 0;
        cells.address = number_at(input, place + 4, 2 * width);
    }
    return cells;
}
