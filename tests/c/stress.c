/* stress CASES FILE...: loads so many drawn and mutated texts of each format, writes what was accepted, and loads that
 * again. The files are S-record texts, to be mutated too. The fields of each answer must agree with the window, with the row
 * alone, and with the span of the text.
 *
 * Every buffer of the library comes from malloc and is just as long as the library is told. Marks are never set before
 * a load, and memory only in half of the cases. So under valgrind any access outside a buffer is seen, and any use of
 * what a buffer held before. The cases depend on the arguments only.
 */
#include <stdlib.h>

#include "answer.h"

enum { LAST_ROW = 14, ROOM = 16384, LONGEST_FILE = 8192, ENTRY = 0x1234 };

struct text {
    uint8_t *bytes;
    size_t length;
};

/* `before` is what memory held, or NULL if it was never set. */
struct window {
    uint32_t base;
    uint8_t *memory;
    size_t length;
    uint8_t *marks;
    size_t marks_length;
    uint8_t *before;
};

/* splitmix64, below `bound`. */
static size_t draw(size_t bound)
{
    static uint64_t state = 1;
    state += 0x9E3779B97F4A7C15u;
    uint64_t z = state;
    z = (z ^ (z >> 30)) * 0xBF58476D1CE4E5B9u;
    z = (z ^ (z >> 27)) * 0x94D049BB133111EBu;
    return (size_t)((z ^ (z >> 31)) % bound);
}

static uint8_t *allocate(size_t length)
{
    uint8_t *bytes = (uint8_t *)malloc(length);
    if (!bytes && length > 0) {
        fputs("stress: out of memory\n", stderr);
        exit(2);
    }
    return bytes;
}

static volatile unsigned seen[256];

/* valgrind reports a byte that was never set once it is used as an index. */
static void look_at(uint8_t byte)
{
    seen[byte] = seen[byte] + 1;
}

/* Appends a record with the right count and checksum. */
static void put_record(struct text *text, char kind, size_t width, uint64_t address, size_t count)
{
    unsigned sum = (unsigned)(width + count + 1);
    char *at = (char *)text->bytes + text->length;

    at += sprintf(at, "S%c%02X", kind, sum);
    for (size_t i = 0; i < width + count; i++) {
        unsigned byte = i < width ? (unsigned)(address >> 8 * (width - 1 - i)) & 0xFF : (unsigned)draw(256);
        at += sprintf(at, draw(2) ? "%02X" : "%02x", byte);
        sum += byte;
    }
    at += sprintf(at, "%02X%s", ~sum & 0xFF, draw(3) ? "\n" : "\r\n");
    text->length = (size_t)((uint8_t *)at - text->bytes);
}

/* Appends a line of a tape with the right check; one without data is a last line, with a number for an address. */
static void put_line(struct text *text, uint64_t address, size_t count)
{
    static const char ends[] = {'\r', '\n', '\0', '\x13'};
    const unsigned head[] = {(unsigned)count, (unsigned)(address >> 8) & 0xFF, (unsigned)address & 0xFF};
    unsigned sum = 0;
    char *at = (char *)text->bytes + text->length;

    *at++ = ';';
    for (size_t i = 0; i < 3 + count; i++) {
        unsigned byte = i < 3 ? head[i] : (unsigned)draw(256);
        at += sprintf(at, draw(2) ? "%02X" : "%02x", byte);
        sum += byte;
    }
    at += sprintf(at, "%04X", count > 0 ? sum : (unsigned)address);
    *at++ = ends[draw(4)];
    text->length = (size_t)((uint8_t *)at - text->bytes);
}

struct data {
    uint64_t address;
    size_t count;
};

/* Data near the window, seldom at the end of the addresses. */
static struct data draw_data(const struct window *window, uint64_t reach, size_t most)
{
    size_t index = draw(window->length + 1);
    uint64_t address = draw(20) ? (window->base + (uint64_t)index) % reach : reach - 1 - draw(4);
    size_t count = draw(10) ? draw(6) : draw(most + 1);

    if (draw(6) && count > window->length - index)
        count = window->length - index;
    return (struct data){address, count};
}

/* Appends a data record, often of another width. */
static void put_data(struct text *text, size_t width, const struct window *window)
{
    size_t own = draw(3) ? width : 2 + draw(3);
    struct data data = draw_data(window, (uint64_t)1 << 8 * own, 254 - own);

    put_record(text, (char)('0' + own - 1), own, data.address, data.count);
}

static void put_data_line(struct text *text, const struct window *window)
{
    struct data data = draw_data(window, 1 << 16, 255);
    put_line(text, data.address, data.count > 0 ? data.count : 1);
}

/* Records that fit together, and in the window, in most cases. */
static void draw_records(struct text *text, const struct window *window)
{
    size_t records = draw(5);
    size_t width = 2 + draw(3);

    while (width < 4 && window->base >> 8 * width && draw(8))
        width++;
    text->length = 0;
    if (draw(2))
        put_record(text, '0', 2, draw(65536), draw(12) ? draw(8) : 252);
    for (size_t i = 0; i < records; i++)
        put_data(text, width, window);
    if (draw(3) == 0)
        put_record(text, '5', 2, draw(4) ? records : draw(65536), 0);
    if (draw(20) == 0)
        put_record(text, '0', 2, 0, 3);
    if (draw(16)) {
        size_t own = 2 + draw(3);
        put_record(text, (char)('0' + 11 - own), own, draw(2) * window->base, 0);
    }
    if (draw(20) == 0)
        put_data(text, width, window);
}

/* The same of a tape's lines. */
static void draw_tape(struct text *text, const struct window *window)
{
    size_t lines = draw(5);

    text->length = 0;
    for (size_t i = 0; i < lines; i++)
        put_data_line(text, window);
    if (draw(16))
        put_line(text, draw(16) ? lines : draw(65536), 0);
    if (draw(20) == 0)
        put_data_line(text, window);
}

static void read_file(const char *name, struct text *text)
{
    FILE *file = fopen(name, "rb");
    if (!file) {
        perror(name);
        exit(2);
    }
    text->length = fread(text->bytes, 1, LONGEST_FILE, file);
    fclose(file);
}

/* Changes, puts in or takes out a character, or cuts the text. What is put in may make a record too long. */
static void mutate(struct text *text)
{
    static const char characters[] = "S;0123456789ABCDEFabcdef\r\n\x13 xg";
    size_t place = draw(text->length + 1);
    uint8_t *at = text->bytes + place;
    size_t behind = text->length - place;
    size_t more = draw(4) ? 1 : 500 + draw(30);
    int character = characters[draw(sizeof characters)];

    switch (draw(4)) {
    case 0:
        memset(at, character, behind > 0);
        break;
    case 1:
        memmove(at + more, at, behind);
        memset(at, character, more);
        text->length += more;
        break;
    case 2:
        memmove(at, at + 1, behind - (behind > 0));
        text->length -= behind > 0;
        break;
    default:
        text->length = place;
    }
}

static struct window draw_window(void)
{
    static const uint32_t bases[] = {0, 0, 0, 0xFFF0, 0x10000, 0xFFFFF8, 0xFFFFFF00, 0xFFFFFFFF};
    struct window window = {bases[draw(8)], NULL, 0, NULL, 0, NULL};

    window.length = draw(3) ? draw(256) : draw(3);
    if (window.base == 0 && draw(3) == 0)
        window.length = 65536;
    window.marks_length = draw(25) ? window.length : draw(256);
    window.memory = allocate(window.length);
    window.marks = allocate(window.marks_length);
    if (draw(2)) {
        window.before = allocate(window.length);
        for (size_t i = 0; i < window.length; i++)
            window.memory[i] = window.before[i] = (uint8_t)i;
    }
    return window;
}

static void free_window(struct window *window)
{
    free(window->memory);
    free(window->marks);
    free(window->before);
}

static uint32_t load_tape(const uint8_t *text, size_t text_len, uint32_t base, uint8_t *memory, size_t memory_len,
                          uint8_t *marks, size_t marks_len)
{
    return srec_load_tape(SREC_REPEAT, text, text_len, base, memory, memory_len, marks, marks_len);
}

/* `alone` gives the row alone. `shortest` is the length of the shortest text. Of the rows up to LAST_ROW those in `never`
 * are not given. */
struct format {
    const char *name;
    uint32_t number;
    void (*draw_text)(struct text *text, const struct window *window);
    uint32_t (*alone)(const uint8_t *, size_t, uint32_t, uint8_t *, size_t, uint8_t *, size_t);
    size_t shortest;
    unsigned never;
};

enum { RECORDS, TAPES, FORMATS };

static const struct format formats[FORMATS] = {
    {"S-records", SREC_RECORDS, draw_records, srec_load, 33, 1 << 9},
    {"tapes", SREC_TAPE_REPEAT, draw_tape, load_tape, 13, 1 << 8 | 1 << 9},
};

/* ---- loads ---- */

/* A window of the same base and lengths, never set. */
static struct window same_window(const struct window *window)
{
    struct window same = *window;
    same.memory = allocate(same.length);
    same.marks = allocate(same.marks_length);
    same.before = NULL;
    return same;
}

/* The row alone is that of the whole answer, and leaves the same marks. */
static void check_alone(const struct format *format, const struct window *window, const struct text *text, uint32_t row)
{
    struct window other = same_window(window);

    CHECK(format->alone(text->bytes, text->length, other.base, other.memory, other.length, other.marks,
                        other.marks_length) == row);
    for (size_t i = 0; i < other.marks_length; i++)
        CHECK(other.marks[i] == window->marks[i]);
    free_window(&other);
}

static size_t count_cells(const struct window *window)
{
    size_t cells = 0;
    for (size_t i = 0; i < window->marks_length; i++)
        cells += window->marks[i];
    return cells;
}

/* A refusal has a place in the text, or at its end, and nothing else. */
static void check_answer(const struct format *format, const struct window *window, const struct text *text,
                         const struct srec_loaded *got)
{
    CHECK(got->place <= text->length && got->record <= text->length && got->want <= 255);
    CHECK(got->want == 0 || (got->reason == 7 && format->number == SREC_RECORDS));
    CHECK(got->has_entry == (got->reason == 0 && format->number == SREC_RECORDS));
    CHECK(got->has_entry == 1 || (got->entry == 0 && got->header_len == 0));
    CHECK(got->header_len <= sizeof got->header);
    CHECK(all(got->header + got->header_len, sizeof got->header - got->header_len, 0));
    CHECK(got->cells == count_cells(window));
    CHECK(got->reason == 0 ? got->record == 0 && got->place == 0 : got->records == 0 && got->cells == 0);
}

/* The span is that of the marks, or does not fit where row 12 says so; and a drawn cell is where a mark is. */
static void check_span(const struct format *format, const struct window *window, const struct text *text, uint32_t row)
{
    struct srec_range span = srec_span(format->number, text->bytes, text->length);
    size_t first = 0, end = window->length, index = draw(window->length + 1);
    struct srec_origin origin =
        srec_where(format->number, text->bytes, text->length, (uint32_t)(window->base + index));

    CHECK(span.any <= 1 && span.lowest <= span.highest && span.highest <= UINT32_MAX);
    CHECK(origin.record <= text->length && origin.place <= text->length && origin.byte <= 255);
    CHECK(row != 12 || (span.any && (span.lowest < window->base || span.highest >= window->base + (uint64_t)end)));
    if (row != 0)
        return;
    while (first < end && window->marks[first] == 0)
        first++;
    while (end > first && window->marks[end - 1] == 0)
        end--;
    CHECK(span.any == (first < end));
    if (first < end)
        CHECK(span.lowest - window->base == first && span.highest - window->base == end - 1);
    if (index < window->length) {
        CHECK((origin.record > 0) == window->marks[index]);
        CHECK(origin.record == 0 || origin.byte == window->memory[index]);
    }
}

static struct srec_loaded load(const struct format *format, struct window *window, const struct text *text)
{
    struct text exact = {allocate(text->length), text->length};
    if (text->length > 0)
        memcpy(exact.bytes, text->bytes, text->length);
    struct srec_loaded got = srec_load_as(format->number, exact.bytes, exact.length, window->base, window->memory,
                                          window->length, window->marks, window->marks_length);
    check_answer(format, window, text, &got);
    check_alone(format, window, &exact, got.reason);
    check_span(format, window, &exact, got.reason);
    free(exact.bytes);
    return got;
}

/* Every mark is set, every addressed cell too, and all other cells are as before. */
static void check_window(const struct window *window, uint32_t row)
{
    CHECK(row <= LAST_ROW);
    for (size_t i = 0; i < window->marks_length; i++) {
        look_at(window->marks[i]);
        CHECK(window->marks[i] == 0 || (row == 0 && window->marks[i] == 1));
    }
    for (size_t i = 0; i < window->length; i++) {
        if (row == 0 && window->marks[i] == 1)
            look_at(window->memory[i]);
        else if (window->before)
            CHECK(window->memory[i] == window->before[i]);
    }
}

/* ---- writes ---- */

/* Writes a window into an output of `room` bytes, where the text needs `length`. A tape has neither header nor entry. */
static struct text write_once(const struct format *format, const struct window *window, const struct text *header,
                              size_t room, size_t length)
{
    struct text out = {allocate(room), 0};
    struct srec_written put = srec_write_as(format->number, window->base, window->memory, window->length, window->marks,
                                            window->marks_length, header->bytes, header->length,
                                            format->number == SREC_RECORDS, ENTRY, out.bytes, room);

    if (room < length)
        WRITTEN(put, 17, length, 0);
    else
        WRITTEN(put, 0, 0, length);
    out.length = put.length;
    for (size_t i = 0; i < out.length; i++)
        look_at(out.bytes[i]);
    return out;
}

/* Writes with more room than needed, as much as needed and one byte less. The text is the caller's to free. */
static struct text write_thrice(const struct format *format, const struct window *window, const struct text *header)
{
    struct srec_written room = srec_room(format->number, window->base, window->memory, window->length, window->marks,
                                         window->marks_length, header->bytes, header->length,
                                         format->number == SREC_RECORDS, ENTRY);

    WRITTEN(room, 0, 0, room.length);
    CHECK(room.length >= format->shortest);
    struct text wide = write_once(format, window, header, room.length + draw(100), room.length);
    struct text exact = write_once(format, window, header, room.length, room.length);
    CHECK(memcmp(wide.bytes, exact.bytes, room.length) == 0);
    free(wide.bytes);
    free(write_once(format, window, header, room.length - 1, room.length).bytes);
    return exact;
}

static struct text draw_header(const struct format *format)
{
    struct text header = {NULL, format->number != SREC_RECORDS || draw(3) ? 0 : draw(253)};

    header.bytes = allocate(header.length);
    for (size_t i = 0; i < header.length; i++)
        header.bytes[i] = (uint8_t)draw(256);
    return header;
}

/* Writes an accepted window and loads the text into a fresh one, which must come out alike. */
static void check_again(const struct format *format, const struct window *window)
{
    struct text header = draw_header(format), text = write_thrice(format, window, &header);
    struct window again = same_window(window);
    struct srec_loaded got = load(format, &again, &text);

    CHECK(got.reason == 0 && got.header_len == header.length);
    CHECK(header.length == 0 || memcmp(got.header, header.bytes, header.length) == 0);
    CHECK(got.entry == (format->number == SREC_RECORDS ? ENTRY : 0));
    check_window(&again, 0);
    for (size_t i = 0; i < window->length; i++) {
        CHECK(again.marks[i] == window->marks[i]);
        CHECK(window->marks[i] == 0 || again.memory[i] == window->memory[i]);
    }
    free_window(&again);
    free(header.bytes);
    free(text.bytes);
}

/* Runs one case and gives the row. What is loaded from a tape can be written as S-records too. */
static uint32_t run_case(const struct format *format, char **files, size_t number)
{
    static uint8_t scratch[ROOM];
    struct text text = {scratch, 0};
    struct window window = draw_window();

    if (format == &formats[RECORDS] && number > 0 && draw(3) == 0)
        read_file(files[draw(number)], &text);
    else
        format->draw_text(&text, &window);
    for (size_t changes = draw(2) * draw(3); changes > 0; changes--)
        mutate(&text);
    uint32_t row = load(format, &window, &text).reason;
    check_window(&window, row);
    if (row == 0)
        check_again(format, &window);
    if (row == 0 && format == &formats[TAPES])
        check_again(&formats[RECORDS], &window);
    free_window(&window);
    return row;
}

/* Each row that a format has must have come up, and no other. */
static void print_rows(const struct format *format, const unsigned rows[LAST_ROW + 1])
{
    printf("rows of %s ", format->name);
    for (unsigned row = 0; row <= LAST_ROW; row++) {
        printf("%s%u: %u", row ? ", " : "", row, rows[row]);
        CHECK((rows[row] > 0) == !(format->never >> row & 1));
    }
    printf("\n");
}

int main(int argc, char **argv)
{
    unsigned rows[FORMATS][LAST_ROW + 1] = {{0}};
    unsigned long cases = argc > 1 ? strtoul(argv[1], NULL, 10) : 0;

    if (cases == 0) {
        fputs("usage: stress CASES FILE...\n", stderr);
        return 2;
    }
    for (unsigned long i = 0; i < cases && failures == 0; i++)
        for (int f = 0; f < FORMATS; f++) {
            uint32_t row = run_case(&formats[f], argv + 2, (size_t)(argc - 2));
            if (row <= LAST_ROW)
                rows[f][row]++;
            if (failures > 0)
                printf("case %lu of %s\n", i, formats[f].name);
        }
    for (int f = 0; f < FORMATS; f++)
        print_rows(&formats[f], rows[f]);
    return failures != 0;
}
