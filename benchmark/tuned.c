/* tuned: made fast by hand, in portable C without vector instructions.
 *
 * Load: a table of 65536 entries gives the byte of two digits. The count says where a record ends, so that no line end
 * is searched; what does not look right is looked at again slowly. Marks are tested eight at a time.
 * Write: a table of 256 entries gives the two digits of a byte. Marks are walked eight or sixteen at a time.
 */
#include <string.h>

#include "twin.h"

#define LIKELY(condition) __builtin_expect(!!(condition), 1)

/* ---- tables ---- */

/* In pair_table, for two characters that are not both digits. */
enum { NO_BYTE = 0xFFFF };

static const char digits[] = "0123456789ABCDEF";
static uint8_t digit_table[256]; /* 0 to 15, or 255 */
static uint16_t pair_table[65536];
static uint8_t text_table[256][2];
static const uint8_t width_table[256] = {
    ['0'] = 2, ['1'] = 2, ['2'] = 3, ['3'] = 4, ['5'] = 2, ['7'] = 4, ['8'] = 3, ['9'] = 2,
};

/* Two characters as an index, in whatever order the machine reads them. */
static inline uint16_t two_at(const uint8_t *chars)
{
    uint16_t two;
    memcpy(&two, chars, sizeof two);
    return two;
}

static inline uint64_t eight_at(const uint8_t *bytes)
{
    uint64_t eight;
    memcpy(&eight, bytes, sizeof eight);
    return eight;
}

/* The byte of two digits, or NO_BYTE. */
static inline unsigned byte_at(const uint8_t *chars)
{
    return pair_table[two_at(chars)];
}

/* Before main, so that no load or write is charged with it. */
__attribute__((constructor)) static void fill_tables(void)
{
    memset(digit_table, 255, sizeof digit_table);
    for (unsigned i = 0; i < 16; i++) {
        digit_table[(uint8_t)digits[i]] = (uint8_t)i;
        if (i > 9)
            digit_table[(uint8_t)digits[i] + 'a' - 'A'] = (uint8_t)i;
    }
    memset(pair_table, 255, sizeof pair_table);
    for (unsigned i = 0; i < 65536; i++) {
        uint8_t chars[2] = {(uint8_t)(i >> 8), (uint8_t)i};
        if (digit_table[chars[0]] < 16 && digit_table[chars[1]] < 16)
            pair_table[two_at(chars)] = (uint16_t)(digit_table[chars[0]] << 4 | digit_table[chars[1]]);
    }
    for (unsigned i = 0; i < 256; i++) {
        text_table[i][0] = (uint8_t)digits[i >> 4];
        text_table[i][1] = (uint8_t)digits[i & 15];
    }
}

/* ---- records ---- */

static inline int is_data(uint8_t kind)
{
    return kind >= '1' && kind <= '3';
}

static inline int is_line_end(uint8_t c)
{
    return c == '\r' || c == '\n';
}

static inline uint32_t address_at(const uint8_t *chars, unsigned width)
{
    uint32_t address = byte_at(chars) << 8 | byte_at(chars + 2);
    if (width > 2)
        address = address << 8 | byte_at(chars + 4);
    if (width > 3)
        address = address << 8 | byte_at(chars + 6);
    return address;
}

/* Adds so many bytes to a sum. Returns 0 if a character is no digit. */
static inline int add_bytes(const uint8_t *chars, unsigned bytes, unsigned *sum)
{
    const uint8_t *end = chars + 2 * bytes;
    unsigned total = *sum, all = 0;

    for (; end - chars >= 8; chars += 8) {
        unsigned a = byte_at(chars), b = byte_at(chars + 2), c = byte_at(chars + 4), d = byte_at(chars + 6);
        all |= a | b | c | d;
        total += a + b + c + d;
    }
    for (; chars < end; chars += 2) {
        unsigned a = byte_at(chars);
        all |= a;
        total += a;
    }
    *sum = total;
    return all < 256;
}

/* Does the record at the start of so many characters pass rows 3 to 5, and end where its count says? Gives its count,
 * and its sum with the checksum. */
static inline int read_record(const uint8_t *chars, size_t left, unsigned *count, unsigned *sum)
{
    if (left < 4 || chars[0] != 'S' || width_table[chars[1]] == 0)
        return 0;
    *count = *sum = byte_at(chars + 2);
    size_t length = 4 + 2 * (size_t)*count;
    if (*count == NO_BYTE || length > left || (length < left && !is_line_end(chars[length])))
        return 0;
    return add_bytes(chars + 4, *count, sum);
}

/* The row, 3 to 6, for a record that did not look right. */
static uint32_t refuse(const uint8_t *chars, size_t left)
{
    size_t length = 0;
    while (length < left && !is_line_end(chars[length]))
        length++;
    if (length > 514)
        return 3;
    if (length < 4 || chars[0] != 'S' || width_table[chars[1]] == 0)
        return 4;
    for (size_t i = 2; i < length; i++)
        if (digit_table[chars[i]] > 15)
            return 5;
    return 6;
}

/* ---- load ---- */

/* What was read so far. */
struct state {
    uint64_t number;
    uint64_t records;
    int ended;
};

/* Rows 8 and 10 for a record that is no data record. */
static uint32_t judge_other(struct state *state, uint8_t kind, uint32_t address)
{
    if (kind == '0')
        return state->number == 1 ? 0 : 8;
    if (kind == '5')
        return address == state->records ? 0 : 10;
    state->ended = 1;
    return 0;
}

/* Marks cells and returns 1, or returns 0 if one was marked. */
static inline int mark(uint8_t *marks, unsigned count)
{
    uint64_t all = 0;
    unsigned i = 0;

    for (; i + 8 <= count; i += 8)
        all |= eight_at(marks + i);
    for (; i < count; i++)
        all |= marks[i];
    if (all != 0)
        return 0;
    memset(marks, 1, count);
    return 1;
}

struct window {
    uint32_t base;
    uint64_t limit; /* the address behind the last cell */
    uint8_t *marks;
};

/* Rows 11 to 13 for a data record, whose cells are then marked. */
static inline uint32_t judge_data(struct state *state, const struct window *window, unsigned width, uint32_t address,
                                  unsigned count)
{
    uint64_t end = (uint64_t)address + count;
    if (end > (uint64_t)1 << 8 * width)
        return 11;
    state->records++;
    if (count == 0)
        return 0;
    if (address < window->base || end > window->limit)
        return 12;
    return mark(window->marks + (address - window->base), count) ? 0 : 13;
}

/* The row that refuses the record at the start of so many characters, or 0. Gives its length. */
static inline uint32_t check_record(const uint8_t *chars, size_t left, struct state *state, const struct window *window,
                                    size_t *length)
{
    unsigned count, sum;

    state->number++;
    if (state->ended)
        return 2;
    if (!LIKELY(read_record(chars, left, &count, &sum)))
        return refuse(chars, left);
    uint8_t kind = chars[1];
    unsigned width = width_table[kind];
    if (count < width + 1 || (kind >= '5' && count != width + 1))
        return 6;
    if ((sum & 255) != 255)
        return 7;
    *length = 4 + 2 * (size_t)count;
    uint32_t address = address_at(chars + 4, width);
    if (!LIKELY(is_data(kind)))
        return judge_other(state, kind, address);
    return judge_data(state, window, width, address, count - width - 1);
}

/* The first pass: finds the row that refuses the text, or 0, and marks the cells. */
static uint32_t check(const uint8_t *text, size_t text_len, const struct window *window)
{
    struct state state = {0, 0, 0};

    for (size_t at = 0; at < text_len;) {
        if (is_line_end(text[at])) {
            at++;
            continue;
        }
        size_t length = 0;
        uint32_t row = check_record(text + at, text_len - at, &state, window, &length);
        if (row != 0)
            return row;
        at += length;
    }
    return state.ended ? 0 : 14;
}

static inline void store_bytes(uint8_t *memory, const uint8_t *chars, unsigned count)
{
    unsigned i = 0;

    for (; i + 4 <= count; i += 4, chars += 8) {
        memory[i] = (uint8_t)byte_at(chars);
        memory[i + 1] = (uint8_t)byte_at(chars + 2);
        memory[i + 2] = (uint8_t)byte_at(chars + 4);
        memory[i + 3] = (uint8_t)byte_at(chars + 6);
    }
    for (; i < count; i++, chars += 2)
        memory[i] = (uint8_t)byte_at(chars);
}

/* The second pass, over a text that was accepted. */
static void store(const uint8_t *text, size_t text_len, uint32_t base, uint8_t *memory)
{
    for (size_t at = 0; at < text_len;) {
        if (is_line_end(text[at])) {
            at++;
            continue;
        }
        const uint8_t *chars = text + at;
        unsigned count = byte_at(chars + 2);
        at += 4 + 2 * (size_t)count;
        if (!is_data(chars[1]))
            continue;
        unsigned width = width_table[chars[1]];
        size_t cell = address_at(chars + 4, width) - base;
        store_bytes(memory + cell, chars + 4 + 2 * width, count - width - 1);
    }
}

uint32_t tuned_load(const uint8_t *text, size_t text_len, uint32_t base, uint8_t *memory, size_t memory_len,
                    uint8_t *marks, size_t marks_len)
{
    if (marks_len > 0)
        memset(marks, 0, marks_len);
    if (marks_len != memory_len || memory_len > 0x100000000u - base)
        return 1;
    struct window window = {base, (uint64_t)base + memory_len, marks};
    uint32_t row = check(text, text_len, &window);
    if (row == 0)
        store(text, text_len, base, memory);
    else if (marks_len > 0)
        memset(marks, 0, marks_len);
    return row;
}

/* ---- write ---- */

/* Eight marks that are set. */
static const uint64_t EIGHT_SET = 0x0101010101010101u;

/* What the length and the width of the text depend on. */
struct size {
    uint64_t cells;
    uint64_t records;
    size_t last; /* the last marked cell, if there is one */
};

/* Counts the cells from one to behind another, between two multiples of 16. Returns 0 if a mark is neither 0 nor 1. */
static int count_cells(const uint8_t *marks, size_t from, size_t to, struct size *size)
{
    uint8_t before = 0;

    for (size_t i = from; i < to; i++) {
        if (marks[i] > 1)
            return 0;
        if (marks[i]) {
            size->cells++;
            size->records += !before;
            size->last = i;
        }
        before = marks[i];
    }
    return 1;
}

/* Measures a window in steps of sixteen cells, full and empty ones at once. Returns 0 as above. */
static int measure(uint32_t base, const uint8_t *marks, size_t length, struct size *size)
{
    size_t i = -base & 15;

    if (i > length)
        i = length;
    if (!count_cells(marks, 0, i, size))
        return 0;
    for (; i + 16 <= length; i += 16) {
        uint64_t low = eight_at(marks + i), high = eight_at(marks + i + 8);
        if (low == EIGHT_SET && high == EIGHT_SET) {
            size->cells += 16;
            size->records++;
            size->last = i + 15;
        } else if ((low | high) != 0 && !count_cells(marks, i, i + 16, size)) {
            return 0;
        }
    }
    return count_cells(marks, i, length, size);
}

static inline uint8_t *put_byte(uint8_t *out, unsigned byte)
{
    memcpy(out, text_table[byte], 2);
    return out + 2;
}

/* Puts a record and its line end, and returns the place behind it. */
static inline uint8_t *put_record(uint8_t *out, char kind, unsigned width, uint32_t address, const uint8_t *data,
                                  unsigned count)
{
    unsigned sum = width + count + 1;

    *out++ = 'S';
    *out++ = (uint8_t)kind;
    out = put_byte(out, sum);
    for (unsigned left = width; left-- > 0;) {
        unsigned byte = address >> 8 * left & 255;
        sum += byte;
        out = put_byte(out, byte);
    }
    for (unsigned i = 0; i < count; i++) {
        sum += data[i];
        out = put_byte(out, data[i]);
    }
    out = put_byte(out, ~sum & 255);
    *out++ = '\n';
    return out;
}

/* The first marked cell from one on; the length if there is none. */
static inline size_t next_cell(const uint8_t *marks, size_t i, size_t length)
{
    if (i < length && marks[i])
        return i;
    while (i + 8 <= length && eight_at(marks + i) == 0)
        i += 8;
    while (i < length && !marks[i])
        i++;
    return i;
}

/* Puts the data records, and returns the place behind them. */
static uint8_t *put_cells(uint8_t *out, uint32_t base, const uint8_t *memory, const uint8_t *marks, size_t length,
                          unsigned width)
{
    char kind = (char)('0' + width - 1);

    for (size_t i = next_cell(marks, 0, length); i < length; i = next_cell(marks, i, length)) {
        uint32_t address = base + (uint32_t)i;
        if ((address & 15) == 0 && i + 16 <= length && (eight_at(marks + i) & eight_at(marks + i + 8)) == EIGHT_SET) {
            out = put_record(out, kind, width, address, memory + i, 16);
            i += 16;
            continue;
        }
        size_t end = i + 1;
        while (end < length && marks[end] && ((base + end) & 15) != 0)
            end++;
        out = put_record(out, kind, width, address, memory + i, (unsigned)(end - i));
        i = end;
    }
    return out;
}

size_t tuned_write(uint32_t base, const uint8_t *memory, size_t memory_len, const uint8_t *marks, size_t marks_len,
                   const uint8_t *header, size_t header_len, uint32_t entry, uint8_t *out, size_t out_len)
{
    struct size size = {0, 0, 0};

    if (marks_len != memory_len || memory_len > 0x100000000u - base || header_len > 252)
        return 0;
    if (!measure(base, marks, marks_len, &size))
        return 0;
    uint32_t largest = entry;
    if (size.cells > 0 && base + (uint32_t)size.last > largest)
        largest = base + (uint32_t)size.last;
    unsigned width = largest < 1u << 16 ? 2 : largest < 1u << 24 ? 3 : 4;
    unsigned line = 7 + 2 * width;
    int counted = size.records <= 65535;
    if (11 + 2 * header_len + size.records * line + 2 * size.cells + (counted ? 11 : 0) + line > out_len)
        return 0;
    uint8_t *end = put_record(out, '0', 2, 0, header, (unsigned)header_len);
    end = put_cells(end, base, memory, marks, memory_len, width);
    if (counted)
        end = put_record(end, '5', 2, (uint32_t)size.records, NULL, 0);
    end = put_record(end, (char)('0' + 11 - width), width, entry, NULL, 0);
    return (size_t)(end - out);
}
