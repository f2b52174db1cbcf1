/* huge: lengths of 2^32 and more, which would look small if 32 bits of them were kept.
 *
 * The address space is reserved and, but for a few pages, never filled. Where a row applies before a buffer is looked
 * at, its pages can not even be read.
 */
#ifndef _GNU_SOURCE
#define _GNU_SOURCE
#endif
#include <stdlib.h>
#include <sys/mman.h>

#include "answer.h"

static const size_t TOP = (size_t)1 << 32;

static const uint8_t terminator[] = {'S', '9', '0', '3', '0', '0', '0', '0', 'F', 'C'};
static const uint8_t block[] = {'$', '$', ' ', 'M', '\n', '$', '$'};
static const uint8_t last_line[] = {';', '0', '0', '0', '0', '0', '0', '0', '0', '0', '0'};

/* So many bytes, all 0, as far as they may be read at all. */
static uint8_t *reserve(size_t length, int protection)
{
    void *pages = mmap(NULL, length, protection, MAP_PRIVATE | MAP_ANONYMOUS | MAP_NORESERVE, -1, 0);
    if (pages == MAP_FAILED) {
        perror("mmap");
        exit(2);
    }
    return (uint8_t *)pages;
}

static void refused_unseen(void)
{
    const size_t length = TOP + 16;
    uint8_t *hidden = reserve(length, PROT_NONE);
    uint8_t marks[4] = {1, 1, 1, 1};
    uint8_t out[100];

    CHECK(srec_load(terminator, sizeof terminator, 0, hidden, TOP + 4, marks, 4) == 1);
    CHECK(marks[0] == 0 && marks[3] == 0);
    CHECK(srec_write(0, hidden, TOP + 1, hidden, TOP + 1, NULL, 0, 0, out, sizeof out) == 0);
    CHECK(srec_write(1, hidden, TOP, hidden, TOP, NULL, 0, 0, out, sizeof out) == 0);
    CHECK(srec_write(0, hidden, TOP + 4, marks, 4, NULL, 0, 0, out, sizeof out) == 0);
    CHECK(srec_write(0, marks, 4, marks, 4, hidden, TOP + 5, 0, out, sizeof out) == 0);
    munmap(hidden, length);
}

static void refused_unseen_for_tapes(void)
{
    const size_t length = TOP + 16;
    uint8_t *hidden = reserve(length, PROT_NONE);
    uint8_t marks[4] = {1, 1, 1, 1};
    uint8_t out[100];

    CHECK(srec_load_tape(SREC_REPEAT, last_line, sizeof last_line, 0, hidden, TOP + 4, marks, 4) == 1);
    CHECK(marks[0] == 0 && marks[3] == 0);
    CHECK(srec_write_tape(SREC_REPEAT, 0, hidden, TOP + 1, hidden, TOP + 1, out, sizeof out) == 0);
    CHECK(srec_write_tape(SREC_REPEAT, 1, hidden, TOP, hidden, TOP, out, sizeof out) == 0);
    CHECK(srec_write_tape(SREC_REPEAT, 0, hidden, TOP + 4, marks, 4, out, sizeof out) == 0);
    munmap(hidden, length);
}

/* Row 1 of whole answers comes before a text without symbols is looked at; row 15 before the marks are. */
static void refused_unseen_as_a_whole(void)
{
    const size_t length = TOP + 16;
    uint8_t *hidden = reserve(length, PROT_NONE);
    uint8_t marks[4] = {1, 1, 1, 1};

    for (uint32_t format = SREC_TAPE_REPEAT; format <= SREC_RECORDS; format++) {
        LOADED(srec_load_as(format, hidden, TOP, 0, hidden, TOP + 4, marks, 4), refusal(1, 0, 0, 0));
        WRITTEN(srec_room(format, 0, hidden, TOP + 1, hidden, TOP + 1, hidden, TOP, 1, 0), 1, 0, 0);
        WRITTEN(srec_write_as(format, 1, hidden, TOP, hidden, TOP, hidden, TOP, 1, 0, hidden, TOP), 1, 0, 0);
    }
    WRITTEN(srec_room(SREC_RECORDS, 0, hidden, 4, hidden, 4, hidden, TOP + 5, 1, 0), 15, 0, 0);
    CHECK(all(marks, 4, 0));
    LOADED(srec_load_behind(block, sizeof block, 0, hidden, TOP + 4, marks, 4), refusal(1, 0, 0, 0));
    LOADED(srec_load_sheet(block, sizeof block, hidden, TOP, 0, hidden, TOP + 4, marks, 4), refusal(1, 0, 0, 0));
    munmap(hidden, length);
}

/* Row 20 refuses a part that is too long before it is looked at, row 1 another length of memory. */
static void refused_unseen_parts(void)
{
    const size_t length = TOP + 16;
    uint8_t *hidden = reserve(length, PROT_NONE);
    uint8_t memory[4] = {0}, marks[4] = {1, 1, 1, 1};
    struct srec_parts parts = srec_begin(0, memory, 4, marks, 4);

    CHECK(srec_feed(parts, hidden, TOP, 0, memory, 4, marks, 4).reason == 20);
    CHECK(srec_feed(parts, hidden, 1, 0, hidden, TOP + 4, marks, 4).reason == 1);
    CHECK(srec_begin(0, hidden, TOP + 4, marks, 4).reason == 1);
    LOADED(srec_end(parts, 0, hidden, TOP + 4, marks, 4).loaded, refusal(1, 0, 0, 0));
    munmap(hidden, length);
}

static void refused_unseen_for_images(void)
{
    const size_t length = TOP + 16, half = TOP / 2 + 2;
    uint8_t *h = reserve(length, PROT_NONE);

    LOADED(srec_merge(0, h, TOP + 4, h, 4, h, 0, 0, 0, h, TOP + 4, h, 4, h, 0, 0, 0), refusal(1, 0, 0, 0));
    LOADED(srec_merge(1, h, TOP, h, TOP, h, 0, 0, 0, h, TOP, h, TOP, h, 0, 0, 0), refusal(1, 0, 0, 0));
    LOADED(srec_merge(0, h, 4, h, 4, h, 0, 0, 0, h, 4, h, 4, h, TOP + 5, 0, 0), refusal(15, 0, 0, 0));
    LOADED(srec_deal(TOP + 2, 0, h, 4, h, 4, h, 2, h, 2, h, 2, h, 2, h, 0, h, 0, h, 0, h, 0), refusal(21, 0, 0, 0));
    LOADED(srec_deal(2, 0, h, TOP + 4, h, TOP + 4, h, half, h, half, h, half, h, half, h, 0, h, 0, h, 0, h, 0),
           refusal(1, 0, 0, 0));
    LOADED(srec_collect(2, 0, h, 4, h, 4, h, TOP + 2, h, 2, h, 2, h, 2, h, 0, h, 0, h, 0, h, 0), refusal(1, 0, 0, 0));
    LOADED(srec_collect(2, 0, h, 4, h, 4, h, 2, h, 2, h, 2, h, 2, h, TOP, h, 0, h, 0, h, 0), refusal(1, 0, 0, 0));
    munmap(h, length);
}

static void long_record(void)
{
    const size_t length = TOP + 10;
    uint8_t *text = reserve(length, PROT_READ);

    CHECK(srec_load(text, length, 0, NULL, 0, NULL, 0) == 3);
    munmap(text, length);
}

/* NUL only separates the lines of a tape, so this one is short. With 32 bits of its length there would be no line. */
static void long_tape(void)
{
    uint8_t *text = reserve(TOP, PROT_READ | PROT_WRITE);

    text[0] = 'x';
    CHECK(srec_load_tape(SREC_REPEAT, text, TOP, 0, NULL, 0, NULL, 0) == 4);
    munmap(text, TOP);
}

/* A data line behind 2^32 characters: places do not wrap. With 32 bits of its length the sheet would be empty. */
static void far_places(void)
{
    static const char line[] = ";01FFFFA502A4";
    const size_t length = TOP + sizeof line - 1;
    uint8_t *text = reserve(length, PROT_READ | PROT_WRITE);

    LOADED(srec_load_sheet(block, sizeof block, text, TOP, 0, NULL, 0, NULL, 0), refusal(25, 0, 1, 0));
    memcpy(text + TOP, line, sizeof line - 1);
    LOADED(srec_load_as(SREC_TAPE_SUM, text, length, 0, NULL, 0, NULL, 0), refusal(12, 0, 1, TOP));
    struct srec_origin origin = srec_where(SREC_TAPE_SUM, text, length, 0xFFFF);
    CHECK(origin.record == 1 && origin.place == TOP && origin.byte == 0xA5);
    struct srec_range span = srec_span(SREC_TAPE_SUM, text, length);
    CHECK(span.any == 1 && span.lowest == 0xFFFF && span.highest == 0xFFFF);
    munmap(text, length);
}

static void large_output(void)
{
    uint8_t *out = reserve(TOP, PROT_READ | PROT_WRITE);

    CHECK(srec_write(0, NULL, 0, NULL, 0, NULL, 0, 0, out, TOP) == 33);
    CHECK(memcmp(out, "S0030000FC\nS5030000FC\nS9030000FC\n", 34) == 0);
    munmap(out, TOP);
}

static void large_output_of_a_tape(void)
{
    uint8_t *out = reserve(TOP, PROT_READ | PROT_WRITE);

    CHECK(srec_write_tape(SREC_REPEAT, 0, NULL, 0, NULL, 0, out, TOP) == 13);
    CHECK(memcmp(out, ";0000000000\r\n", 14) == 0);
    munmap(out, TOP);
}

/* All addresses there are, with the last one marked; for a tape the last that it can have. */
static void whole_window(void)
{
    const char text[] = "S0030000FC\nS306FFFFFFFF5AA3\nS5030001FB\nS70500000000FA\n";
    const char tape[] = ";01FFFFA502A4\r\n;0000010001\r\n";
    uint8_t *memory = reserve(TOP, PROT_READ | PROT_WRITE);
    uint8_t *marks = reserve(TOP, PROT_READ | PROT_WRITE);
    uint8_t out[sizeof text];

    memory[TOP - 1] = 0x5A;
    marks[TOP - 1] = 1;
    CHECK(srec_write(0, memory, TOP, marks, TOP, NULL, 0, 0, out, sizeof out) == sizeof text - 1);
    CHECK(memcmp(out, text, sizeof text - 1) == 0);
    WRITTEN(srec_room(SREC_RECORDS, 0, memory, TOP, marks, TOP, NULL, 0, 1, 0), 0, 0, sizeof text - 1);
    WRITTEN(srec_room(SREC_TAPE_SUM, 0, memory, TOP, marks, TOP, NULL, 0, 0, 0), 11, TOP - 1, 0);
    CHECK(srec_write_tape(SREC_REPEAT, 0, memory, TOP, marks, TOP, out, sizeof out) == 0);
    marks[TOP - 1] = 0;
    memory[0xFFFF] = 0xA5;
    marks[0xFFFF] = 1;
    CHECK(srec_write_tape(SREC_REPEAT, 0, memory, TOP, marks, TOP, out, sizeof out) == sizeof tape - 1);
    CHECK(memcmp(out, tape, sizeof tape - 1) == 0);
    munmap(memory, TOP);
    munmap(marks, TOP);
}

int main(void)
{
    refused_unseen();
    refused_unseen_for_tapes();
    refused_unseen_as_a_whole();
    refused_unseen_parts();
    refused_unseen_for_images();
    long_record();
    long_tape();
    far_places();
    large_output();
    large_output_of_a_tape();
    whole_window();
    return failures != 0;
}
