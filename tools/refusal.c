#include "refusal.h"

#include <inttypes.h>
#include <stdio.h>
#include <string.h>

#include "place.h"

static int is_tape(const struct input *input)
{
    return input->kind == KIND_TAPE_REPEAT || input->kind == KIND_TAPE_SUM;
}

static int is_of_block(uint32_t row)
{
    return row >= ROW_BLOCK && row <= ROW_LAST_OF_BLOCK;
}

/* The end of a text is shown behind its last line, not on an empty line that no editor shows. */
static size_t end_of(const struct input *input)
{
    size_t end = input->length;

    while (end > 0) {
        uint8_t byte = input->bytes[end - 1];

        if (byte != '\r' && byte != '\n' && !(is_tape(input) && (byte == 0x00 || byte == 0x13)))
            break;
        end--;
    }
    return end;
}

/* The place of a refused load as an index into the whole input. */
static size_t place_of(const struct input *input, const struct srec_loaded *answer)
{
    size_t place = answer->place;

    if (!is_of_block(answer->reason))
        place += input->start;
    return place < input->length ? place : end_of(input);
}

/* A tape's last line has the length field 00. */
static void tell_edition(const struct input *input, size_t place)
{
    if (input->length - place >= 3 && memcmp(input->bytes + place, ";00", 3) == 0)
        fprintf(stderr, "  it is the last line, which is checked by the tape's edition: the other one is %s\n",
                input->kind == KIND_TAPE_REPEAT ? "--edition sum (--from tape-sum)" : "--edition repeat (--from tape)");
}

/* The first cell of a refused record that an earlier one gave. */
static void tell_first(const struct input *input, size_t place, size_t record)
{
    struct records all = records_of(input);
    struct cells cells = cells_at(input, place);

    for (size_t i = 0; i < cells.count; i++) {
        uint32_t address = (uint32_t)(cells.address + i);
        struct srec_origin origin = srec_where(all.format, all.text, all.length, address);

        if (origin.record != 0 && origin.record < record) {
            fprintf(stderr, "  cell %08" PRIX32 " was given first by line %zu\n", address,
                    spot_of(input, origin.place + input->start).line);
            return;
        }
    }
}

static void tell_outside(const struct input *input, const struct window *window, size_t place)
{
    struct cells cells = cells_at(input, place);

    fprintf(stderr, "  it has %zu cell%s from %08" PRIX64 " on, the window %zu from %08" PRIX32 " on\n", cells.count,
            cells.count == 1 ? "" : "s", cells.address, window->length, window->base);
}

/* Text editors put such marks, and no format here has them. */
static void tell_mark(const struct input *input)
{
    static const struct {
        const char *bytes;
        size_t length;
        const char *name;
    } marks[] = {
        {"\xEF\xBB\xBF", 3, "UTF-8"},
        {"\xFF\xFE", 2, "UTF-16"},
        {"\xFE\xFF", 2, "UTF-16"},
    };

    for (size_t i = 0; i < sizeof marks / sizeof marks[0]; i++) {
        if (input->length >= marks[i].length && memcmp(input->bytes, marks[i].bytes, marks[i].length) == 0)
            fprintf(stderr, "  the file begins with a byte-order mark of %s: save it as plain ASCII\n", marks[i].name);
    }
}

static void tell_place(const struct input *input, size_t place, uint32_t row)
{
    struct spot spot = spot_of(input, place);

    fprintf(stderr, "%s:%zu:%zu: %s (refusal %" PRIu32 ")\n", input->name, spot.line, spot.column, srec_reason(row),
            row);
    show_spot(input, place);
    if (place == 0)
        tell_mark(input);
}

void tell_refusal(const struct input *input, const struct window *window, const struct srec_loaded *answer)
{
    size_t place = place_of(input, answer);

    tell_place(input, place, answer->reason);
    if (answer->reason == ROW_CHECKSUM && is_tape(input))
        tell_edition(input, place);
    else if (answer->reason == ROW_CHECKSUM)
        fprintf(stderr, "  the right checksum is %02" PRIX32 "\n", answer->want);
    else if (answer->reason == ROW_OUTSIDE)
        tell_outside(input, window, place);
    else if (answer->reason == ROW_TWICE)
        tell_first(input, place, answer->record);
}

void tell_refused_sheet(const struct input *symbols, const struct input *sheet, const struct srec_loaded *answer)
{
    size_t text = answer->place + 3;

    if (is_of_block(answer->reason)) {
        tell_place(symbols, place_of(symbols, answer), answer->reason);
        return;
    }
    fprintf(stderr, "%s: field %zu, at byte %zu: %s (refusal %" PRIu32 ")\n", sheet->name, answer->record,
            answer->place, srec_reason(answer->reason), answer->reason);
    /* The expression of an address, as far as it is there: a tag, a length of two bytes, the characters. */
    if (text < sheet->length && sheet->bytes[answer->place] == 1) {
        size_t length = (size_t)sheet->bytes[text - 2] << 8 | sheet->bytes[text - 1];
        size_t left = sheet->length - text;

        if (length > 0)
            show_text(sheet->bytes + text, length < left ? length : left);
    }
}

void tell_row(const char *name, uint32_t row)
{
    fprintf(stderr, "%s: %s (refusal %" PRIu32 ")\n", name, srec_reason(row), row);
}

void tell_refused_write(const char *name, const struct window *window, const struct srec_written *written)
{
    tell_row(name, written->reason);
    if (written->reason == ROW_PAST_WIDTH)
        fprintf(stderr, "  the first cell above FFFF is %08" PRIX64 "\n", (uint64_t)window->base + written->place);
    else if (written->reason == ROW_NO_ENTRY)
        fprintf(stderr, "  --entry ADDRESS gives one\n");
}
