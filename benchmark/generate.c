#include "generate.h"

#include <stdio.h>
#include <stdlib.h>
#include <string.h>

const uint8_t header[3] = {'H', 'D', 'R'};

static const char digits[] = "0123456789ABCDEF";

/* The largest number of data records that an S5 can hold. */
enum { LARGEST_COUNT = 65535 };

static void *allocate(size_t length)
{
    void *bytes = malloc(length);
    if (!bytes) {
        fputs("generate: out of memory\n", stderr);
        exit(2);
    }
    return bytes;
}

/* One step of xorshift64. */
static uint64_t scramble(uint64_t state)
{
    state ^= state << 13;
    state ^= state >> 7;
    state ^= state << 17;
    return state;
}

static void put_byte(struct text *text, unsigned byte)
{
    text->chars[text->length++] = (uint8_t)digits[byte >> 4 & 15];
    text->chars[text->length++] = (uint8_t)digits[byte & 15];
}

static void put_record(struct text *text, char kind, unsigned width, size_t address, const uint8_t *data, size_t count)
{
    unsigned sum = width + (unsigned)count + 1;

    text->chars[text->length++] = 'S';
    text->chars[text->length++] = (uint8_t)kind;
    put_byte(text, sum);
    for (unsigned left = width; left-- > 0;) {
        unsigned byte = (unsigned)(address >> 8 * left) & 255;
        sum += byte;
        put_byte(text, byte);
    }
    for (size_t i = 0; i < count; i++) {
        sum += data[i];
        put_byte(text, data[i]);
    }
    put_byte(text, ~sum & 255);
    text->chars[text->length++] = '\n';
}

/* A line of a tape. Without data it is the last one, with the number of data lines for an address and for a check. */
static void put_line(struct text *text, size_t address, const uint8_t *data, size_t count)
{
    unsigned sum = (unsigned)(count + (address >> 8) + (address & 255));

    text->chars[text->length++] = ';';
    put_byte(text, (unsigned)count);
    put_byte(text, (unsigned)(address >> 8));
    put_byte(text, (unsigned)address);
    for (size_t i = 0; i < count; i++) {
        sum += data[i];
        put_byte(text, data[i]);
    }
    if (count == 0)
        sum = (unsigned)address;
    put_byte(text, sum >> 8);
    put_byte(text, sum);
    text->chars[text->length++] = '\r';
    text->chars[text->length++] = '\n';
}

/* Random bytes that depend on the record's number alone, so that each order has the same data. */
static void draw_data(uint8_t data[256], size_t number)
{
    uint64_t state = number * 0x9E3779B97F4A7C15u + 1;

    for (size_t i = 0; i < 256; i += sizeof state) {
        state = scramble(state);
        memcpy(data + i, &state, sizeof state);
    }
}

/* The numbers of the records, in the order in which they are to stand. */
static uint32_t *draw_order(enum order order, size_t records)
{
    uint32_t *numbers = allocate(records * sizeof *numbers);
    uint64_t state = 88172645463325252u;

    for (size_t i = 0; i < records; i++)
        numbers[i] = (uint32_t)i;
    for (size_t i = records; order == SHUFFLED && i > 1; i--) {
        state = scramble(state);
        size_t other = (size_t)(state % i);
        uint32_t number = numbers[i - 1];
        numbers[i - 1] = numbers[other];
        numbers[other] = number;
    }
    return numbers;
}

/* A line has at most so many characters besides its data. Besides the data records a text has at most three lines. */
enum { LINE = 15, OTHER_LINES = 3 };

/* Enough for a text with runs of so many bytes. A line of the canonical text has no data on both sides of a multiple of
 * 16, so a run of n bytes takes at most (n + 14) / 16 + 1 lines. */
static size_t room_for(size_t runs, size_t run)
{
    size_t lines = runs * ((run + 14) / 16 + 1);
    return (lines + OTHER_LINES) * LINE + 2 * (runs * run + sizeof header);
}

/* Room for so many data records with so many data bytes, and no character yet. */
static struct text start(size_t records, size_t bytes, size_t cells, size_t room)
{
    uint8_t *chars = allocate((records + OTHER_LINES) * LINE + 2 * (bytes + sizeof header));
    return (struct text){chars, 0, bytes, cells, room, 0};
}

static void put_data(struct text *text, size_t number, size_t address, size_t count)
{
    uint8_t data[256];

    draw_data(data, number);
    text->last = text->length;
    put_record(text, '3', 4, address, data, count);
}

struct text generate(enum order order, size_t bytes, size_t size)
{
    size_t records = (bytes + size - 1) / size;
    size_t last = bytes - (records - 1) * size;
    size_t step = order == SPARSE ? 4 * size : size;
    size_t cells = (records - 1) * step + last;
    struct text text = start(records, bytes, cells, order == SPARSE ? room_for(records, size) : room_for(1, bytes));
    uint32_t *numbers = draw_order(order, records);

    put_record(&text, '0', 2, 0, header, sizeof header);
    for (size_t i = 0; i < records; i++)
        put_data(&text, numbers[i], numbers[i] * step, numbers[i] + 1 < records ? size : last);
    if (records <= LARGEST_COUNT)
        put_record(&text, '5', 2, records, NULL, 0);
    put_record(&text, '7', 4, 0, NULL, 0);
    free(numbers);
    return text;
}

/* So many data bytes, rounded up to whole blocks. */
static uint8_t *draw_cells(size_t bytes)
{
    uint8_t *cells = allocate(bytes + 255);

    for (size_t i = 0; i < bytes; i += 256)
        draw_data(cells + i, i);
    return cells;
}

/* What stands behind the data. */
static void put_end(struct text *text, enum layout layout, size_t records)
{
    if (layout == TAPE_LINES) {
        put_line(text, records, NULL, 0);
        return;
    }
    put_record(text, '5', 2, records, NULL, 0);
    put_record(text, '9', 2, 0, NULL, 0);
}

struct text generate_cells(enum layout layout, enum order order, size_t bytes, size_t size)
{
    size_t records = (bytes + size - 1) / size;
    struct text text = start(records, bytes, bytes, room_for(1, bytes));
    uint32_t *numbers = draw_order(order, records);
    uint8_t *cells = draw_cells(bytes);

    if (layout == S1_RECORDS)
        put_record(&text, '0', 2, 0, header, sizeof header);
    for (size_t i = 0; i < records; i++) {
        size_t address = numbers[i] * size, left = bytes - address, count = left < size ? left : size;
        text.last = text.length;
        if (layout == TAPE_LINES)
            put_line(&text, address, cells + address, count);
        else
            put_record(&text, '1', 2, address, cells + address, count);
    }
    put_end(&text, layout, records);
    free(cells);
    free(numbers);
    return text;
}

struct text generate_small(void)
{
    struct text text = start(2, 32, 32, room_for(1, 32));

    put_record(&text, '0', 2, 0, header, sizeof header);
    put_data(&text, 0, 0, 16);
    put_data(&text, 1, 16, 16);
    put_record(&text, '7', 4, 0, NULL, 0);
    return text;
}

struct text generate_line(size_t length)
{
    struct text text = {allocate(length), length, 0, 0, 0, 0};

    for (size_t i = 0; i < length; i++)
        text.chars[i] = (uint8_t)digits[i & 15];
    text.chars[0] = 'S';
    text.chars[1] = '3';
    return text;
}

void spoil(struct text *text, enum fault fault)
{
    /* Behind S3, the count and the address. */
    uint8_t *digit = text->chars + text->last + 12;
    *digit = fault == NO_DIGIT ? 'G' : *digit == '0' ? '1' : '0';
}
