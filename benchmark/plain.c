/* plain: the loader and the writer that one writes first, one character at a time.
 *
 * Compiled twice. With TABLE defined a table gives the value of a digit, and the functions have other names.
 */
#include <string.h>

#include "twin.h"

#ifdef TABLE
#define LOAD table_load
#define WRITE table_write
#else
#define LOAD plain_load
#define WRITE plain_write
#endif

/* ---- digits ---- */

/* The value of a digit; -1 for a character that is none. */
#ifdef TABLE
#define NONE_9 -1, -1, -1, -1, -1, -1, -1, -1, -1
#define NONE_16 NONE_9, -1, -1, -1, -1, -1, -1, -1
static int digit(uint8_t c)
{
    /* clang-format off */
    static const int8_t values[256] = {
        NONE_16, NONE_16, NONE_16,                            /* 00 to 2F */
        0, 1, 2, 3, 4, 5, 6, 7, 8, 9, -1, -1, -1, -1, -1, -1, /* 30 to 3F */
        -1, 10, 11, 12, 13, 14, 15, NONE_9,                   /* 40 to 4F */
        NONE_16,                                              /* 50 to 5F */
        -1, 10, 11, 12, 13, 14, 15, NONE_9,                   /* 60 to 6F */
        NONE_16, NONE_16, NONE_16, NONE_16, NONE_16,          /* 70 to BF */
        NONE_16, NONE_16, NONE_16, NONE_16,                   /* C0 to FF */
    };
    /* clang-format on */
    return values[c];
}
#else
static int digit(uint8_t c)
{
    if (c >= '0' && c <= '9')
        return c - '0';
    if (c >= 'A' && c <= 'F')
        return c - 'A' + 10;
    if (c >= 'a' && c <= 'f')
        return c - 'a' + 10;
    return -1;
}
#endif

static uint8_t byte_at(const uint8_t *chars)
{
    return (uint8_t)(digit(chars[0]) << 4 | digit(chars[1]));
}

static uint32_t number_at(const uint8_t *chars, unsigned bytes)
{
    uint32_t number = 0;
    for (unsigned i = 0; i < bytes; i++)
        number = number << 8 | byte_at(chars + 2 * i);
    return number;
}

/* ---- records ---- */

/* The address bytes of a type; 0 for a type that is not known. */
static unsigned width_of(uint8_t kind)
{
    switch (kind) {
    case '0':
    case '1':
    case '5':
    case '9':
        return 2;
    case '2':
    case '8':
        return 3;
    case '3':
    case '7':
        return 4;
    default:
        return 0;
    }
}

static int is_data(uint8_t kind)
{
    return kind >= '1' && kind <= '3';
}

static int is_terminator(uint8_t kind)
{
    return kind >= '7' && kind <= '9';
}

static int is_line_end(uint8_t c)
{
    return c == '\r' || c == '\n';
}

struct record {
    uint8_t kind;
    unsigned width;
    uint32_t address;
    unsigned count; /* data bytes */
};

/* Reads a record of so many characters. Returns 0, or the row that refuses it: 3 to 7. */
static uint32_t read_record(const uint8_t *chars, size_t length, struct record *record)
{
    if (length > 514)
        return 3;
    if (length < 4 || chars[0] != 'S' || width_of(chars[1]) == 0)
        return 4;
    for (size_t i = 2; i < length; i++)
        if (digit(chars[i]) < 0)
            return 5;
    uint8_t kind = chars[1];
    unsigned width = width_of(kind);
    unsigned count = byte_at(chars + 2);
    if (length != 4 + 2 * (size_t)count || count < width + 1)
        return 6;
    if ((kind == '5' || is_terminator(kind)) && count != width + 1)
        return 6;
    unsigned sum = count;
    for (unsigned i = 0; i + 1 < count; i++)
        sum += byte_at(chars + 4 + 2 * i);
    if (255 - (sum & 255) != byte_at(chars + length - 2))
        return 7;
    *record = (struct record){kind, width, number_at(chars + 4, width), count - width - 1};
    return 0;
}

/* ---- load ---- */

/* What was read so far. */
struct state {
    uint64_t number;
    uint64_t records;
    int ended;
};

/* Rows 8, 10 and 11 for the next record, which is then counted. */
static uint32_t judge(struct state *state, const struct record *record)
{
    state->number++;
    if (record->kind == '0')
        return state->number == 1 ? 0 : 8;
    if (record->kind == '5')
        return record->address == state->records ? 0 : 10;
    if (is_terminator(record->kind)) {
        state->ended = 1;
        return 0;
    }
    state->records++;
    return (uint64_t)record->address + record->count > (uint64_t)1 << 8 * record->width ? 11 : 0;
}

/* Rows 12 and 13 for a data record, whose cells are then marked. */
static uint32_t claim(const struct record *record, uint32_t base, uint8_t *marks, size_t length)
{
    if (record->count == 0)
        return 0;
    if (record->address < base || (uint64_t)record->address + record->count > (uint64_t)base + length)
        return 12;
    uint8_t *part = marks + (record->address - base);
    for (unsigned i = 0; i < record->count; i++)
        if (part[i])
            return 13;
    for (unsigned i = 0; i < record->count; i++)
        part[i] = 1;
    return 0;
}

/* The first pass: finds the row that refuses the text, or 0, and marks the cells. */
static uint32_t check(const uint8_t *text, size_t text_len, uint32_t base, uint8_t *marks, size_t length)
{
    struct state state = {0, 0, 0};

    for (size_t at = 0; at < text_len;) {
        if (is_line_end(text[at])) {
            at++;
            continue;
        }
        size_t start = at;
        while (at < text_len && !is_line_end(text[at]))
            at++;
        if (state.ended)
            return 2;
        struct record record;
        uint32_t row = read_record(text + start, at - start, &record);
        if (row == 0)
            row = judge(&state, &record);
        if (row == 0 && is_data(record.kind))
            row = claim(&record, base, marks, length);
        if (row != 0)
            return row;
    }
    return state.ended ? 0 : 14;
}

/* The second pass, over a text that was accepted. */
static void store(const uint8_t *text, size_t text_len, uint32_t base, uint8_t *memory)
{
    for (size_t at = 0; at < text_len;) {
        if (is_line_end(text[at])) {
            at++;
            continue;
        }
        const uint8_t *chars = text + at;
        unsigned count = byte_at(chars + 2);
        at += 4 + 2 * (size_t)count;
        if (!is_data(chars[1]))
            continue;
        unsigned width = width_of(chars[1]);
        size_t cell = number_at(chars + 4, width) - base;
        for (unsigned i = 0; i < count - width - 1; i++)
            memory[cell + i] = byte_at(chars + 4 + 2 * width + 2 * i);
    }
}

uint32_t LOAD(const uint8_t *text, size_t text_len, uint32_t base, uint8_t *memory, size_t memory_len, uint8_t *marks,
              size_t marks_len)
{
    if (marks_len > 0)
        memset(marks, 0, marks_len);
    if (marks_len != memory_len || memory_len > 0x100000000u - base)
        return 1;
    uint32_t row = check(text, text_len, base, marks, marks_len);
    if (row == 0)
        store(text, text_len, base, memory);
    else if (marks_len > 0)
        memset(marks, 0, marks_len);
    return row;
}

/* ---- write ---- */

/* Where the text goes. Without an output its length is counted alone. */
struct sink {
    uint8_t *out;
    size_t length;
    unsigned sum;
};

static inline void put_chars(struct sink *sink, char first, char second)
{
    if (sink->out) {
        sink->out[sink->length] = (uint8_t)first;
        sink->out[sink->length + 1] = (uint8_t)second;
    }
    sink->length += 2;
}

static inline void put_byte(struct sink *sink, unsigned byte)
{
    static const char digits[] = "0123456789ABCDEF";
    put_chars(sink, digits[byte >> 4 & 15], digits[byte & 15]);
    sink->sum += byte;
}

static void put_line_end(struct sink *sink)
{
    if (sink->out)
        sink->out[sink->length] = '\n';
    sink->length++;
}

static void put_record(struct sink *sink, char kind, unsigned width, uint32_t address, const uint8_t *data,
                       size_t count)
{
    put_chars(sink, 'S', kind);
    sink->sum = 0;
    put_byte(sink, width + (unsigned)count + 1);
    for (unsigned left = width; left-- > 0;)
        put_byte(sink, address >> 8 * left & 255);
    for (size_t i = 0; i < count; i++)
        put_byte(sink, data[i]);
    put_byte(sink, 255 - (sink->sum & 255));
    put_line_end(sink);
}

struct image {
    uint32_t base;
    const uint8_t *memory;
    const uint8_t *marks;
    size_t length;
    const uint8_t *header;
    size_t header_len;
    uint32_t entry;
    unsigned width;
};

/* The end of the run of cells that starts at a cell. A record's data do not pass a multiple of 16. */
static size_t run_end(uint32_t base, const uint8_t *marks, size_t length, size_t start)
{
    size_t end = start + 1;
    while (end < length && marks[end] && ((base + end) & 15) != 0)
        end++;
    return end;
}

/* Puts the canonical text and returns its length. */
static size_t put_text(const struct image *image, uint8_t *out)
{
    struct sink sink = {out, 0, 0};
    const uint8_t *marks = image->marks;
    size_t length = image->length;
    unsigned width = image->width;
    uint32_t records = 0;

    put_record(&sink, '0', 2, 0, image->header, image->header_len);
    for (size_t i = 0; i < length;) {
        if (!marks[i]) {
            i++;
            continue;
        }
        size_t end = run_end(image->base, marks, length, i);
        put_record(&sink, (char)('0' + width - 1), width, image->base + (uint32_t)i, image->memory + i, end - i);
        records++;
        i = end;
    }
    if (records <= 65535)
        put_record(&sink, '5', 2, records, NULL, 0);
    put_record(&sink, (char)('0' + 11 - width), width, image->entry, NULL, 0);
    return sink.length;
}

static unsigned width_for(uint32_t largest)
{
    return largest < 1u << 16 ? 2 : largest < 1u << 24 ? 3 : 4;
}

size_t WRITE(uint32_t base, const uint8_t *memory, size_t memory_len, const uint8_t *marks, size_t marks_len,
             const uint8_t *header, size_t header_len, uint32_t entry, uint8_t *out, size_t out_len)
{
    uint32_t largest = entry;

    if (marks_len != memory_len || memory_len > 0x100000000u - base || header_len > 252)
        return 0;
    for (size_t i = 0; i < marks_len; i++) {
        if (marks[i] > 1)
            return 0;
        if (marks[i] && base + i > largest)
            largest = (uint32_t)(base + i);
    }
    struct image image = {base, memory, marks, memory_len, header, header_len, entry, width_for(largest)};
    if (put_text(&image, NULL) > out_len)
        return 0;
    return put_text(&image, out);
}
