/* answers: every field of the whole answer, for accepted texts and for each row that refuses a load or a write.
 *
 * What is expected was worked out by hand from docs/FORMAT.md: sections 3, 4 and 5, and 11 for tapes. */
#include <stdio.h>

#include "answer.h"

enum { CELLS = 16, FILL = 0x77, LONGEST_HEADER = 252, LONGEST_RECORD = 514, LONGEST_LINE = 521 };

struct window {
    uint8_t memory[CELLS];
    uint8_t marks[CELLS];
};

static struct srec_loaded load(uint32_t format, const char *text, size_t length, uint32_t base, struct window *window)
{
    memset(window, FILL, sizeof *window);
    return srec_load_as(format, (const uint8_t *)text, length, base, window->memory, CELLS, window->marks, CELLS);
}

/* The same text without the last 0 of a string. */
static struct srec_loaded load_string(uint32_t format, const char *text, uint32_t base, struct window *window)
{
    return load(format, text, strlen(text), base, window);
}

static void check_nothing_loaded(const struct window *window)
{
    CHECK(all(window->memory, CELLS, FILL));
    CHECK(all(window->marks, CELLS, 0));
}

/* ---- loads that are accepted ---- */

/* A header, a record of two cells, one of none, an entry. */
static void accepted_records(void)
{
    const char text[] = "S00600004844521B\nS1050002AABB93\nS103FF00FD\nS9031234B6\n";
    struct window window;

    /* Any other number is taken for S-records. */
    LOADED(load_string(UINT32_MAX, text, 0, &window), titled(accepted(2, 2), "HDR", 3, 0x1234));
    LOADED(load_string(SREC_RECORDS + 1, text, 0, &window), titled(accepted(2, 2), "HDR", 3, 0x1234));
    LOADED(load_string(SREC_RECORDS, text, 0, &window), titled(accepted(2, 2), "HDR", 3, 0x1234));
    for (size_t i = 0; i < CELLS; i++)
        CHECK(window.marks[i] == (i == 2 || i == 3) && (window.marks[i] == 1 || window.memory[i] == FILL));
    CHECK(window.memory[2] == 0xAA && window.memory[3] == 0xBB);
}

/* The least that there is: entry 0 is an entry. And the largest entry, which need not lie in the window. */
static void accepted_entries(void)
{
    struct window window;

    LOADED(load_string(SREC_RECORDS, "S9030000FC", 0, &window), titled(accepted(0, 0), NULL, 0, 0));
    CHECK(all(window.memory, CELLS, FILL) && all(window.marks, CELLS, 0));
    LOADED(load_string(SREC_RECORDS, "S705FFFFFFFFFE", 0, &window), titled(accepted(0, 0), NULL, 0, UINT32_MAX));
    LOADED(load_string(SREC_RECORDS, "S804ABCDEF94", 0, &window), titled(accepted(0, 0), NULL, 0, 0xABCDEF));
    /* A header of zeros counts by its length. */
    LOADED(load_string(SREC_RECORDS, "S00500000000FA\nS9030000FC", 0, &window), titled(accepted(0, 0), "\0", 2, 0));
}

/* FF + 252 times 41 hex is 255 + 16380 = 16635, modulo 256 it is FB: the checksum is 04. */
static void longest_header(void)
{
    char text[LONGEST_RECORD + 16] = "S0FF0000";
    uint8_t header[LONGEST_HEADER];
    struct window window;

    memset(header, 'A', sizeof header);
    for (size_t i = 0; i < LONGEST_HEADER; i++)
        strcat(text, "41");
    strcat(text, "04\nS9030000FC");
    LOADED(load_string(SREC_RECORDS, text, 0, &window), titled(accepted(0, 0), header, LONGEST_HEADER, 0));
}

/* A tape has neither header nor entry. */
static void accepted_tapes(void)
{
    const char tape[] = ";02FFFEAABB0364\r\n;01FFF0AA029A\r\n;0000020002\r\n";
    struct window window;

    for (uint32_t format = SREC_TAPE_REPEAT; format <= SREC_TAPE_SUM; format++) {
        LOADED(load_string(format, tape, 0xFFF0, &window), accepted(2, 3));
        CHECK(window.memory[0] == 0xAA && window.memory[14] == 0xAA && window.memory[15] == 0xBB);
        CHECK(window.marks[0] == 1 && all(window.marks + 1, 13, 0) && all(window.marks + 14, 2, 1));
    }
    LOADED(load_string(SREC_TAPE_REPEAT, ";0000000000", 0xFFF0, &window), accepted(0, 0));
}

/* ---- loads that are refused ---- */

struct refused {
    uint32_t reason, want;
    size_t record, place;
    const char *text;
};

static void check_refused(uint32_t format, uint32_t base, const struct refused *refused, size_t number)
{
    struct window window;

    for (size_t i = 0; i < number; i++) {
        int before = failures;
        LOADED(load_string(format, refused[i].text, base, &window),
               refusal(refused[i].reason, refused[i].want, refused[i].record, refused[i].place));
        check_nothing_loaded(&window);
        if (failures != before)
            printf("text %s\n", refused[i].text);
    }
}

/* In the cells 0000 to 000F. */
static void refused_records(void)
{
    static const struct refused refused[] = {
        {2, 0, 2, 11, "S9030000FC\nx"},
        {2, 0, 3, 28, "S00600004844521B\nS9031234B6\nS1040000AA51"},
        {4, 0, 1, 2, "\r\ns9030000FC"},
        {4, 0, 1, 0, "S90"},
        {4, 0, 1, 0, "S6030000FC"},
        {5, 0, 2, 19, "S1040000AA51\nS90300G0FC"},
        {5, 0, 1, 10, "S9030000FC \n"},
        {6, 0, 1, 0, "S10200FD"},
        {6, 0, 2, 13, "S1040000AA51\nS804000AF0001"},
        {7, 0xFC, 1, 0, "S9030000FD"},
        {7, 0x50, 2, 17, "S00600004844521B\nS1040000AB51\nS9030000FC"},
        {7, 0x00, 1, 0, "S1040000FB01"},
        {8, 0, 2, 13, "S1040000AA51\nS0030000FC"},
        {8, 0, 2, 12, "S0030000FC\r\nS0030000FC"},
        {10, 0, 1, 0, "S5030001FB"},
        {11, 0, 1, 0, "S105FFFF1122C9"},
        {12, 0, 1, 0, "S1040010AA41\nS9030000FC"},
        {13, 0, 2, 14, "S1040000AA51\n\nS1040000AA51"},
        {14, 0, 0, 0, ""},
        {14, 0, 0, 2, "\r\n"},
        {14, 0, 1, 14, "S1040000AA51\n\n"},
    };

    check_refused(SREC_RECORDS, 0, refused, sizeof refused / sizeof refused[0]);
    check_refused(UINT32_MAX, 0, refused, sizeof refused / sizeof refused[0]);
}

/* In the cells FFF0 to FFFF. Row 7 has no right byte here. */
static void refused_tapes(void)
{
    static const struct refused refused[] = {
        {2, 0, 2, 12, ";0000000000\n;"},
        {4, 0, 1, 0, "KIM\n;0000000000"},
        {4, 0, 1, 1, "\n;0"},
        {5, 0, 1, 11, "\x13;000000000G"},
        {6, 0, 1, 0, ";0100000000"},
        {7, 0, 1, 0, ";01FFF0AA029B"},
        {7, 0, 1, 0, ";0000000001"},
        {10, 0, 2, 14, ";01FFF0AA029A\n;0000020002"},
        {11, 0, 1, 0, ";02FFFFAABB0365"},
        {12, 0, 1, 0, ";01FFEFAA0299"},
        {13, 0, 2, 15, ";01FFF0AA029A\r\n;01FFF0AA029A"},
        {14, 0, 1, 13, ";01FFF0AA029A"},
        {14, 0, 0, 0, ""},
    };
    /* 256 data lines are said to stand before it; the editions differ in the check. */
    static const struct refused repeat[] = {{10, 0, 1, 0, ";0001000100"}, {7, 0, 1, 0, ";0001000001"}};
    static const struct refused sum[] = {{7, 0, 1, 0, ";0001000100"}, {10, 0, 1, 0, ";0001000001"}};

    check_refused(SREC_TAPE_REPEAT, 0xFFF0, refused, sizeof refused / sizeof refused[0]);
    check_refused(SREC_TAPE_SUM, 0xFFF0, refused, sizeof refused / sizeof refused[0]);
    check_refused(SREC_TAPE_REPEAT, 0xFFF0, repeat, 2);
    check_refused(SREC_TAPE_SUM, 0xFFF0, sum, 2);
}

/* Row 3, one character too long, behind a line end; without that character it is row 5, at its third character. */
static void refused_length(void)
{
    char line[1 + LONGEST_LINE + 1];
    struct window window;

    memset(line, 'S', sizeof line);
    line[0] = '\n';
    line[2] = '1';
    LOADED(load(SREC_RECORDS, line, 1 + LONGEST_RECORD + 1, 0, &window), refusal(3, 0, 1, 1));
    check_nothing_loaded(&window);
    LOADED(load(SREC_RECORDS, line, 1 + LONGEST_RECORD, 0, &window), refusal(5, 0, 1, 3));
    line[1] = ';';
    LOADED(load(SREC_TAPE_SUM, line, 1 + LONGEST_LINE + 1, 0, &window), refusal(3, 0, 1, 1));
    LOADED(load(SREC_TAPE_SUM, line, 1 + LONGEST_LINE, 0, &window), refusal(5, 0, 1, 3));
}

/* Row 1 is tried first, whatever the text; the marks that there are become 0. */
static void refused_window(void)
{
    const uint8_t text[] = "x";
    struct window window;

    for (uint32_t format = SREC_TAPE_REPEAT; format <= SREC_RECORDS; format++) {
        memset(&window, FILL, sizeof window);
        LOADED(srec_load_as(format, text, 1, 0, window.memory, CELLS, window.marks, CELLS - 1), refusal(1, 0, 0, 0));
        CHECK(all(window.memory, CELLS, FILL) && all(window.marks, CELLS - 1, 0) && window.marks[CELLS - 1] == FILL);
        LOADED(load(format, "x", 1, UINT32_MAX - CELLS + 2, &window), refusal(1, 0, 0, 0));
        check_nothing_loaded(&window);
        LOADED(load(format, "x", 1, UINT32_MAX - CELLS + 1, &window), refusal(4, 0, 1, 0));
    }
}

/* ---- writes ---- */

/* What there is to write: two cells, and a header and an entry where has_entry is not 0. */
struct image {
    uint32_t base;
    uint8_t memory[2], marks[2];
    size_t marks_len, header_len;
    uint32_t has_entry;
};

enum { ENTRY = 0x10, ROOM = 64 };

static const uint8_t header[LONGEST_HEADER + 1] = {'A'};

/* Writes into so much room, and checks what stands there: the text if it is accepted, and all else as before. The length
 * that is needed is the same in srec_room, which never gives row 17. */
static void check_write(uint32_t format, struct image image, size_t room, uint32_t reason, size_t place,
                        const char *text, int line)
{
    size_t length = reason == 0 ? strlen(text) : 0;
    uint8_t out[ROOM];

    memset(out, FILL, sizeof out);
    check_written(srec_write_as(format, image.base, image.memory, 2, image.marks, image.marks_len, header,
                                image.header_len, image.has_entry, ENTRY, out, room),
                  reason, place, length, line);
    check(memcmp(out, text, length) == 0, "the text", line);
    check(all(out + length, sizeof out - length, FILL), "the bytes behind the text", line);
    struct srec_written needed = srec_room(format, image.base, image.memory, 2, image.marks, image.marks_len, header,
                                           image.header_len, image.has_entry, ENTRY);
    if (reason == 0 || reason == 17)
        check_written(needed, 0, 0, reason == 0 ? length : place, line);
    else
        check_written(needed, reason, place, 0, line);
}

#define WRITE(format, image, room, reason, place, text) check_write(format, image, room, reason, place, text, __LINE__)

/* 50 characters. Each change is taken with the later ones, so that the order of the rows shows: 17, 18, 16, 15, 1. */
static void write_records(uint32_t format)
{
    const char text[] = "S004000041BA\nS1050000AABB95\nS5030001FB\nS9030010EC\n";
    struct image image = {0, {0xAA, 0xBB}, {1, 1}, 2, 1, 1};

    WRITE(format, image, ROOM, 0, 0, text);
    WRITE(format, image, 50, 0, 0, text);
    WRITE(format, image, 49, 17, 50, "");
    WRITE(format, image, 0, 17, 50, "");
    image.has_entry = UINT32_MAX;
    WRITE(format, image, 50, 0, 0, text);
    image.has_entry = 0;
    WRITE(format, image, 0, 18, 0, "");
    WRITE(format, image, ROOM, 18, 0, "");
    image.marks[1] = 2;
    WRITE(format, image, 0, 16, 1, "");
    image.marks[0] = 255;
    WRITE(format, image, 0, 16, 0, "");
    image.header_len = LONGEST_HEADER + 1;
    WRITE(format, image, 0, 15, 0, "");
    image.marks_len = 1;
    WRITE(format, image, 0, 1, 0, "");
    image.marks_len = 2;
    image.base = UINT32_MAX;
    WRITE(format, image, 0, 1, 0, "");
}

/* 28 characters, for the cell FFFF; the one behind it is above a tape. The rows: 17, 11, 19, 16, 1. */
static void write_tapes(uint32_t format)
{
    const char tape[] = ";01FFFFAA02A9\r\n;0000010001\r\n";
    struct image image = {0xFFFF, {0xAA, 0xBB}, {1, 0}, 2, 0, 0};

    WRITE(format, image, ROOM, 0, 0, tape);
    WRITE(format, image, 28, 0, 0, tape);
    WRITE(format, image, 27, 17, 28, "");
    image.marks[1] = 1;
    WRITE(format, image, 0, 11, 1, "");
    image.base = 0x10000;
    WRITE(format, image, ROOM, 11, 0, "");
    image.has_entry = 1;
    WRITE(format, image, 0, 19, 0, "");
    image.has_entry = 0;
    image.header_len = 1;
    WRITE(format, image, 0, 19, 0, "");
    /* A header that is too long is just one too many here. */
    image.header_len = LONGEST_HEADER + 1;
    WRITE(format, image, 0, 19, 0, "");
    image.marks[1] = 2;
    WRITE(format, image, 0, 16, 1, "");
    image.marks_len = 1;
    WRITE(format, image, 0, 1, 0, "");
}

/* The longest header takes 515 characters with its line end, the rest as in the shortest text 22. */
static void write_longest_header(void)
{
    uint8_t long_header[LONGEST_HEADER], out[515 + 22];

    memset(long_header, 'A', sizeof long_header);
    WRITTEN(srec_room(SREC_RECORDS, 7, NULL, 0, NULL, 0, long_header, LONGEST_HEADER, 1, 0), 0, 0, sizeof out);
    WRITTEN(srec_write_as(SREC_RECORDS, 7, NULL, 0, NULL, 0, long_header, LONGEST_HEADER, 1, 0, out, sizeof out), 0, 0,
            sizeof out);
    CHECK(memcmp(out, "S0FF00004141", 12) == 0);
    CHECK(memcmp(out + 510, "4104\nS5030000FC\nS9030000FC\n", 27) == 0);
}

int main(void)
{
    accepted_records();
    accepted_entries();
    longest_header();
    accepted_tapes();
    refused_records();
    refused_tapes();
    refused_length();
    refused_window();
    write_records(SREC_RECORDS);
    write_records(UINT32_MAX);
    write_tapes(SREC_TAPE_REPEAT);
    write_tapes(SREC_TAPE_SUM);
    write_longest_header();
    return failures != 0;
}
