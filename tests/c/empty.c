/* empty: buffers of length 0, for which any pointer will do. */
#include "answer.h"

static const uint8_t terminator[] = {'S', '9', '0', '3', '0', '0', '0', '0', 'F', 'C'};
static const uint8_t one_cell[] = "S1040000AA51\nS9030000FC\n";
static const char shortest[] = "S0030000FC\nS5030000FC\nS9030000FC\n";
static const uint8_t last_line[] = {';', '0', '0', '0', '0', '0', '0', '0', '0', '0', '0'};
static const uint8_t tape_cell[] = ";010000AA00AB\r\n;0000010001\r\n";
static const uint8_t block[] = {'$', '$', ' ', 'M', '\n', '$', '$'};
static const char shortest_tape[] = ";0000000000\r\n";

enum { SHORTEST = sizeof shortest - 1, ONE_CELL = sizeof one_cell - 1 };
enum { SHORTEST_TAPE = sizeof shortest_tape - 1, TAPE_CELL = sizeof tape_cell - 1 };

/* Row 14, and the window is as after any refusal. */
static void empty_text(void)
{
    uint8_t memory[3] = {1, 2, 3};
    uint8_t marks[3] = {1, 0, 7};

    CHECK(srec_load(NULL, 0, 0, memory, 3, marks, 3) == 14);
    CHECK(memory[0] == 1 && memory[1] == 2 && memory[2] == 3);
    CHECK(marks[0] == 0 && marks[1] == 0 && marks[2] == 0);
    CHECK(srec_load(one_cell, 0, 0, memory, 3, marks, 3) == 14);
}

static void empty_window(void)
{
    CHECK(srec_load(terminator, sizeof terminator, 0, NULL, 0, NULL, 0) == 0);
    CHECK(srec_load(terminator, sizeof terminator, UINT32_MAX, NULL, 0, NULL, 0) == 0);
    CHECK(srec_load(one_cell, ONE_CELL, 0, NULL, 0, NULL, 0) == 12);
    CHECK(srec_load(NULL, 0, 0, NULL, 0, NULL, 0) == 14);
}

/* Row 1 for marks and memory of different length. All marks are 0 even then. */
static void half_a_window(void)
{
    uint8_t memory[2] = {8, 9};
    uint8_t marks[2] = {5, 1};

    CHECK(srec_load(terminator, sizeof terminator, 0, NULL, 0, marks, 2) == 1);
    CHECK(marks[0] == 0 && marks[1] == 0);
    CHECK(srec_load(terminator, sizeof terminator, 0, memory, 2, NULL, 0) == 1);
    CHECK(memory[0] == 8 && memory[1] == 9);
    CHECK(srec_write(0, memory, 2, NULL, 0, NULL, 0, 0, memory, 0) == 0);
    CHECK(srec_write(0, NULL, 0, marks, 2, NULL, 0, 0, memory, 0) == 0);
}

static void write_empty_window(void)
{
    const uint8_t header[] = {'A'};
    uint8_t out[SHORTEST + 2];

    CHECK(srec_write(7, NULL, 0, NULL, 0, NULL, 0, 0, out, SHORTEST) == SHORTEST);
    CHECK(memcmp(out, shortest, SHORTEST) == 0);
    CHECK(srec_write(7, NULL, 0, NULL, 0, header, 0, 0, out, SHORTEST) == SHORTEST);
    CHECK(srec_write(7, NULL, 0, NULL, 0, header, 1, 0, out, sizeof out) == SHORTEST + 2);
    CHECK(memcmp(out, "S004000041BA\n", 13) == 0);
}

static void write_empty_header(void)
{
    const uint8_t memory[] = {0xAA};
    const uint8_t marks[] = {1};
    const char text[] = "S0030000FC\nS1040000AA51\nS5030001FB\nS9030000FC\n";
    const size_t length = sizeof text - 1;
    uint8_t out[sizeof text];

    CHECK(srec_write(0, memory, 1, marks, 1, NULL, 0, 0, out, sizeof out) == length);
    CHECK(memcmp(out, text, length) == 0);
}

/* Row 17, however little there is to write. */
static void empty_output(void)
{
    const uint8_t memory[] = {0xAA};
    const uint8_t marks[] = {1};

    CHECK(srec_write(0, memory, 1, marks, 1, memory, 1, 0, NULL, 0) == 0);
    CHECK(srec_write(0, NULL, 0, NULL, 0, NULL, 0, 0, NULL, 0) == 0);
}

/* The same of a tape: no text, no window, half a window. */
static void load_tapes(void)
{
    uint8_t memory[2] = {8, 9};
    uint8_t marks[2] = {5, 1};

    CHECK(srec_load_tape(SREC_REPEAT, NULL, 0, 0, memory, 2, marks, 2) == 14);
    CHECK(memory[0] == 8 && memory[1] == 9);
    CHECK(marks[0] == 0 && marks[1] == 0);
    CHECK(srec_load_tape(SREC_REPEAT, NULL, 0, 0, NULL, 0, NULL, 0) == 14);
    CHECK(srec_load_tape(SREC_REPEAT, last_line, sizeof last_line, 0, NULL, 0, NULL, 0) == 0);
    CHECK(srec_load_tape(SREC_REPEAT, last_line, sizeof last_line, UINT32_MAX, NULL, 0, NULL, 0) == 0);
    CHECK(srec_load_tape(SREC_REPEAT, tape_cell, TAPE_CELL, 0, NULL, 0, NULL, 0) == 12);
    marks[1] = 1;
    CHECK(srec_load_tape(SREC_REPEAT, last_line, sizeof last_line, 0, NULL, 0, marks, 2) == 1);
    CHECK(marks[0] == 0 && marks[1] == 0);
    CHECK(srec_load_tape(SREC_REPEAT, last_line, sizeof last_line, 0, memory, 2, NULL, 0) == 1);
    CHECK(memory[0] == 8 && memory[1] == 9);
}

static void write_tapes(void)
{
    const uint8_t memory[] = {0xAA};
    const uint8_t marks[] = {1};
    uint8_t out[TAPE_CELL] = {0};

    CHECK(srec_write_tape(SREC_REPEAT, 7, NULL, 0, NULL, 0, out, SHORTEST_TAPE) == SHORTEST_TAPE);
    CHECK(memcmp(out, shortest_tape, SHORTEST_TAPE) == 0);
    CHECK(srec_write_tape(SREC_REPEAT, UINT32_MAX, NULL, 0, NULL, 0, out, SHORTEST_TAPE) == SHORTEST_TAPE);
    CHECK(srec_write_tape(SREC_REPEAT, 0, memory, 1, marks, 1, out, sizeof out) == TAPE_CELL);
    CHECK(memcmp(out, tape_cell, TAPE_CELL) == 0);
    CHECK(srec_write_tape(SREC_REPEAT, 0, memory, 1, marks, 1, NULL, 0) == 0);
    CHECK(srec_write_tape(SREC_REPEAT, 0, NULL, 0, NULL, 0, NULL, 0) == 0);
    CHECK(srec_write_tape(SREC_REPEAT, 0, memory, 1, NULL, 0, out, sizeof out) == 0);
    CHECK(srec_write_tape(SREC_REPEAT, 0, NULL, 0, marks, 1, out, sizeof out) == 0);
}

/* ---- the whole answer ---- */

static void whole_loads(void)
{
    for (uint32_t format = SREC_TAPE_REPEAT; format <= SREC_RECORDS; format++) {
        LOADED(srec_load_as(format, NULL, 0, 0, NULL, 0, NULL, 0), refusal(14, 0, 0, 0));
        LOADED(srec_load_as(format, NULL, 0, UINT32_MAX, NULL, 0, NULL, 0), refusal(14, 0, 0, 0));
    }
    LOADED(srec_load_as(SREC_RECORDS, terminator, sizeof terminator, 0, NULL, 0, NULL, 0),
           titled(accepted(0, 0), NULL, 0, 0));
    LOADED(srec_load_as(SREC_TAPE_SUM, last_line, sizeof last_line, 0, NULL, 0, NULL, 0), accepted(0, 0));
    LOADED(srec_load_as(SREC_RECORDS, one_cell, ONE_CELL, 0, NULL, 0, NULL, 0), refusal(12, 0, 1, 0));
    LOADED(srec_load_as(SREC_TAPE_SUM, tape_cell, TAPE_CELL, 0, NULL, 0, NULL, 0), refusal(12, 0, 1, 0));
}

static void whole_writes(void)
{
    uint8_t out[SHORTEST];

    WRITTEN(srec_room(SREC_RECORDS, 7, NULL, 0, NULL, 0, NULL, 0, 1, 0), 0, 0, SHORTEST);
    WRITTEN(srec_write_as(SREC_RECORDS, 7, NULL, 0, NULL, 0, NULL, 0, 1, 0, out, SHORTEST), 0, 0, SHORTEST);
    CHECK(memcmp(out, shortest, SHORTEST) == 0);
    WRITTEN(srec_write_as(SREC_RECORDS, 7, NULL, 0, NULL, 0, NULL, 0, 1, 0, NULL, 0), 17, SHORTEST, 0);
    WRITTEN(srec_write_as(SREC_RECORDS, 7, NULL, 0, NULL, 0, NULL, 0, 0, 0, NULL, 0), 18, 0, 0);
    WRITTEN(srec_room(SREC_TAPE_SUM, 7, NULL, 0, NULL, 0, NULL, 0, 0, 0), 0, 0, SHORTEST_TAPE);
    WRITTEN(srec_write_as(SREC_TAPE_SUM, 7, NULL, 0, NULL, 0, NULL, 0, 0, 0, out, sizeof out), 0, 0, SHORTEST_TAPE);
    CHECK(memcmp(out, shortest_tape, SHORTEST_TAPE) == 0);
    WRITTEN(srec_write_as(SREC_TAPE_SUM, 7, NULL, 0, NULL, 0, NULL, 0, 0, 0, NULL, 0), 17, SHORTEST_TAPE, 0);
}

static void spans(void)
{
    for (uint32_t format = SREC_TAPE_REPEAT; format <= SREC_RECORDS; format++) {
        CHECK(srec_span(format, NULL, 0).any == 0);
        CHECK(srec_where(format, NULL, 0, 0).record == 0);
    }
    CHECK(srec_span_sheet(NULL, 0, NULL, 0).any == 0);
    CHECK(srec_span_sheet(block, sizeof block, NULL, 0).any == 0);
}

/* Two empty images make one; a base without cells takes no patch of some. */
static void images(void)
{
    const uint8_t memory[] = {0xAA}, marks[] = {1};

    LOADED(srec_merge(7, NULL, 0, NULL, 0, NULL, 0, 0, 0, NULL, 0, NULL, 0, NULL, 0, 0, 0), accepted(0, 0));
    LOADED(srec_merge(7, NULL, 0, NULL, 0, memory, 1, 1, 9, NULL, 0, NULL, 0, NULL, 0, 0, 0),
           titled(accepted(0, 0), memory, 1, 9));
    LOADED(srec_merge(7, NULL, 0, NULL, 0, NULL, 0, 0, 0, memory, 1, marks, 1, NULL, 0, 0, 0), refusal(1, 0, 0, 0));
    for (size_t chips = 2; chips <= 4; chips += 2) {
        LOADED(srec_deal(chips, 8, NULL, 0, NULL, 0, NULL, 0, NULL, 0, NULL, 0, NULL, 0, NULL, 0, NULL, 0, NULL, 0,
                         NULL, 0),
               accepted(0, 0));
        LOADED(srec_collect(chips, 8, NULL, 0, NULL, 0, NULL, 0, NULL, 0, NULL, 0, NULL, 0, NULL, 0, NULL, 0, NULL, 0,
                            NULL, 0),
               accepted(0, 0));
    }
    LOADED(srec_deal(0, 8, NULL, 0, NULL, 0, NULL, 0, NULL, 0, NULL, 0, NULL, 0, NULL, 0, NULL, 0, NULL, 0, NULL, 0),
           refusal(21, 0, 0, 0));
}

static void symbols(void)
{
    uint8_t memory[1] = {7}, marks[1] = {7};

    CHECK(srec_behind(NULL, 0) == 0 && srec_behind(block, sizeof block) == sizeof block);
    LOADED(srec_load_behind(NULL, 0, 0, NULL, 0, NULL, 0), refusal(22, 0, 0, 0));
    LOADED(srec_load_behind(block, sizeof block, 0, NULL, 0, NULL, 0), refusal(14, 0, 0, 0));
    LOADED(srec_load_sheet(NULL, 0, NULL, 0, 0, NULL, 0, NULL, 0), refusal(22, 0, 0, 0));
    LOADED(srec_load_sheet(block, sizeof block, NULL, 0, 0, NULL, 0, NULL, 0), accepted(0, 0));
    LOADED(srec_load_sheet(block, sizeof block, NULL, 0, 0, memory, 1, marks, 1), accepted(0, 0));
    CHECK(memory[0] == 7 && marks[0] == 0);
}

/* No part at all, and parts without characters. */
static void no_parts(void)
{
    struct srec_parts parts = srec_begin(UINT32_MAX, NULL, 0, NULL, 0);

    CHECK(parts.reason == 0 && parts.total == 0);
    LOADED(srec_end(parts, UINT32_MAX, NULL, 0, NULL, 0).loaded, refusal(14, 0, 0, 0));
    parts = srec_feed(parts, NULL, 0, UINT32_MAX, NULL, 0, NULL, 0);
    LOADED(srec_end(parts, UINT32_MAX, NULL, 0, NULL, 0).loaded, refusal(14, 0, 0, 0));
    parts = srec_feed(parts, terminator, sizeof terminator, UINT32_MAX, NULL, 0, NULL, 0);
    LOADED(srec_end(parts, UINT32_MAX, NULL, 0, NULL, 0).loaded, titled(accepted(0, 0), NULL, 0, 0));
}

int main(void)
{
    empty_text();
    empty_window();
    half_a_window();
    write_empty_window();
    write_empty_header();
    empty_output();
    load_tapes();
    write_tapes();
    whole_loads();
    whole_writes();
    spans();
    images();
    symbols();
    no_parts();
    return failures != 0;
}
