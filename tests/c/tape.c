/* tape: a small tape is loaded and written again, also by way of S-records, refusals leave buffers as they must, and the
 * editions differ where they should. */
#include <string.h>

#include "check.h"
#include "srec.h"

/* The window passes FFFF, the last address of a tape. */
enum { BASE = 0xFFF0, CELLS = 24, ABOVE = 16, FILL = 0x77, LONGEST = 521 };

/* Two runs out of order, one of them up to FFFF; digits of both cases; each of the four characters that end a line. */
static const char tape[] = ";02FFFEaAbB0364\n\r;03FFF4112233025c\0;0000020002\x13";
static const char canonical[] = ";03FFF4112233025C\r\n;02FFFEAABB0364\r\n;0000020002\r\n";
static const char records[] = "S0030000FC\nS106FFF4112233A0\nS105FFFEAABB98\nS5030002FA\nS9030000FC\n";

enum { TAPE = sizeof tape - 1, CANONICAL = sizeof canonical - 1, RECORDS = sizeof records - 1 };

struct window {
    uint8_t memory[CELLS];
    uint8_t marks[CELLS];
};

/* Memory and marks that hold something already. */
static struct window filled_window(void)
{
    struct window window;
    memset(&window, FILL, sizeof window);
    return window;
}

static uint32_t load_tape(struct window *window, const char *text, size_t length)
{
    return srec_load_tape(SREC_REPEAT, (const uint8_t *)text, length, BASE, window->memory, CELLS, window->marks,
                          CELLS);
}

static size_t write_tape(const struct window *window, uint8_t *out, size_t room)
{
    return srec_write_tape(SREC_REPEAT, BASE, window->memory, CELLS, window->marks, CELLS, out, room);
}

/* The cells of the tape above, and nothing else. */
static void check_cells(const struct window *window)
{
    for (size_t i = 0; i < CELLS; i++)
        CHECK(window->marks[i] == ((i >= 4 && i <= 6) || i == 14 || i == 15));
    CHECK(memcmp(window->memory + 4, "\x11\x22\x33", 3) == 0);
    CHECK(memcmp(window->memory + 14, "\xAA\xBB", 2) == 0);
    for (size_t i = 0; i < CELLS; i++)
        CHECK(window->marks[i] == 1 || window->memory[i] == FILL);
}

static void load_and_write(void)
{
    struct window window = filled_window(), again = filled_window();
    uint8_t out[CANONICAL + 1];

    CHECK(load_tape(&window, tape, TAPE) == 0);
    check_cells(&window);
    out[CANONICAL] = FILL;
    CHECK(write_tape(&window, out, sizeof out) == CANONICAL);
    CHECK(memcmp(out, canonical, CANONICAL) == 0);
    CHECK(out[CANONICAL] == FILL);
    CHECK(load_tape(&again, canonical, CANONICAL) == 0);
    check_cells(&again);
    CHECK(write_tape(&again, out, CANONICAL) == CANONICAL);
    CHECK(memcmp(out, canonical, CANONICAL) == 0);
}

/* A loaded tape becomes S-records, and those a tape, with the same cells. */
static void across_the_formats(void)
{
    struct window window = filled_window(), again = filled_window();
    uint8_t out[RECORDS];

    CHECK(load_tape(&window, tape, TAPE) == 0);
    CHECK(srec_write(BASE, window.memory, CELLS, window.marks, CELLS, NULL, 0, 0, out, RECORDS) == RECORDS);
    CHECK(memcmp(out, records, RECORDS) == 0);
    CHECK(srec_load(out, RECORDS, BASE, again.memory, CELLS, again.marks, CELLS) == 0);
    check_cells(&again);
    CHECK(write_tape(&again, out, CANONICAL) == CANONICAL);
    CHECK(memcmp(out, canonical, CANONICAL) == 0);
}

/* Memory is as before and every mark 0. */
static void check_refused(uint32_t row, const char *text, size_t length)
{
    struct window window = filled_window();

    CHECK(load_tape(&window, text, length) == row);
    for (size_t i = 0; i < CELLS; i++)
        CHECK(window.memory[i] == FILL && window.marks[i] == 0);
}

static void refused_loads(void)
{
    static const struct {
        uint32_t row;
        const char *text;
    } refused[] = {
        {2, ";0000000000\n;0000000000"},
        {4, "KIM\n;0000000000"},
        {4, ";0"},
        {5, ";000000000G"},
        {6, ";0100000000"},
        {7, ";01FFF0AA029B"},
        {7, ";0000000001"},
        {10, ";01FFF0AA029A\n;0000020002"},
        {11, ";02FFFFAABB0365"},
        {12, ";01FFEFAA0299"},
        {13, ";01FFF0AA029A\n;01FFF0AA029A"},
        {14, ";01FFF0AA029A"},
    };
    char line[LONGEST + 1];

    for (size_t i = 0; i < sizeof refused / sizeof refused[0]; i++)
        check_refused(refused[i].row, refused[i].text, strlen(refused[i].text));
    memset(line, ';', sizeof line);
    check_refused(3, line, LONGEST + 1);
    check_refused(5, line, LONGEST);
}

static void refused_window(void)
{
    struct window window = filled_window();
    const uint8_t *text = (const uint8_t *)tape;

    CHECK(srec_load_tape(SREC_REPEAT, text, TAPE, BASE, window.memory, CELLS, window.marks, CELLS - 1) == 1);
    CHECK(window.memory[0] == FILL && window.marks[0] == 0 && window.marks[CELLS - 1] == FILL);
    CHECK(srec_load_tape(SREC_REPEAT, text, TAPE, UINT32_MAX, window.memory, 2, window.marks, 2) == 1);
}

/* The output is as before. */
static void check_not_written(const struct window *window, size_t marks_len, size_t room)
{
    uint8_t out[CANONICAL];

    memset(out, FILL, sizeof out);
    CHECK(srec_write_tape(SREC_REPEAT, BASE, window->memory, CELLS, window->marks, marks_len, out, room) == 0);
    for (size_t i = 0; i < sizeof out; i++)
        CHECK(out[i] == FILL);
}

/* Rows 17, 1, 16 and 11; then the same window once more, which is none of these. */
static void refused_writes(void)
{
    struct window window = filled_window();
    uint8_t out[CANONICAL];

    CHECK(load_tape(&window, tape, TAPE) == 0);
    check_not_written(&window, CELLS, CANONICAL - 1);
    check_not_written(&window, CELLS - 1, CANONICAL);
    window.marks[0] = 2;
    check_not_written(&window, CELLS, CANONICAL);
    window.marks[0] = 0;
    window.marks[ABOVE] = 1;
    check_not_written(&window, CELLS, CANONICAL);
    window.marks[ABOVE] = 0;
    CHECK(write_tape(&window, out, CANONICAL) == CANONICAL);
}

/* A last line for 256 data lines has another check in each edition; below 256 both are the same. */
static void editions(void)
{
    static const uint8_t again[] = ";0001000100", sum[] = ";0001000001";
    struct window window = filled_window();
    uint8_t out[CANONICAL];

    CHECK(srec_load_tape(SREC_REPEAT, again, sizeof again - 1, 0, NULL, 0, NULL, 0) == 10);
    CHECK(srec_load_tape(SREC_REPEAT, sum, sizeof sum - 1, 0, NULL, 0, NULL, 0) == 7);
    CHECK(srec_load_tape(SREC_SUM, again, sizeof again - 1, 0, NULL, 0, NULL, 0) == 7);
    CHECK(srec_load_tape(SREC_SUM, sum, sizeof sum - 1, 0, NULL, 0, NULL, 0) == 10);
    CHECK(srec_load_tape(UINT32_MAX, sum, sizeof sum - 1, 0, NULL, 0, NULL, 0) == 10);
    CHECK(srec_load_tape(SREC_SUM, (const uint8_t *)tape, TAPE, BASE, window.memory, CELLS, window.marks, CELLS) == 0);
    check_cells(&window);
    CHECK(srec_write_tape(SREC_SUM, BASE, window.memory, CELLS, window.marks, CELLS, out, CANONICAL) == CANONICAL);
    CHECK(memcmp(out, canonical, CANONICAL) == 0);
}

/* Every second cell of 512: 256 data lines, which the editions write apart. */
static void written_apart(void)
{
    static uint8_t memory[512], marks[512], first[256 * 15 + 13], second[sizeof first];
    const size_t length = sizeof first, last = length - 13;

    for (size_t i = 0; i < sizeof marks; i += 2)
        marks[i] = 1;
    CHECK(srec_write_tape(SREC_REPEAT, 0, memory, 512, marks, 512, first, length) == length);
    CHECK(srec_write_tape(SREC_SUM, 0, memory, 512, marks, 512, second, length) == length);
    CHECK(memcmp(first, second, last) == 0);
    CHECK(memcmp(first + last, ";0001000100\r\n", 13) == 0);
    CHECK(memcmp(second + last, ";0001000001\r\n", 13) == 0);
    CHECK(srec_load_tape(SREC_REPEAT, first, length, 0, memory, 512, marks, 512) == 0);
    CHECK(srec_load_tape(SREC_SUM, first, length, 0, memory, 512, marks, 512) == 7);
    CHECK(srec_load_tape(SREC_SUM, second, length, 0, memory, 512, marks, 512) == 0);
    CHECK(srec_load_tape(SREC_REPEAT, second, length, 0, memory, 512, marks, 512) == 7);
}

int main(void)
{
    load_and_write();
    across_the_formats();
    refused_loads();
    refused_window();
    refused_writes();
    editions();
    written_apart();
    return failures != 0;
}
