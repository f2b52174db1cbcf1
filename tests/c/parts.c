/* parts: S-records that arrive in parts. Wherever a text is cut, the end gives the answer for the whole text.
 *
 * What is expected was worked out by hand from docs/FORMAT.md, section 12. */
#include "answer.h"

enum { CELLS = 16, FILL = 0x77 };

struct window {
    uint8_t memory[CELLS];
    uint8_t marks[CELLS];
};

static struct srec_parts begin(struct window *window)
{
    memset(window, FILL, sizeof *window);
    return srec_begin(0, window->memory, CELLS, window->marks, CELLS);
}

static struct srec_parts feed(struct srec_parts parts, const char *part, size_t length, struct window *window)
{
    return srec_feed(parts, (const uint8_t *)part, length, 0, window->memory, CELLS, window->marks, CELLS);
}

static struct srec_loaded end(struct srec_parts parts, struct window *window)
{
    return srec_end(parts, 0, window->memory, CELLS, window->marks, CELLS).loaded;
}

/* In parts of one length; of length 0 all at once, behind a part without characters. */
static struct srec_loaded in_parts(const char *text, size_t each, struct window *window)
{
    struct srec_parts parts = begin(window);
    size_t length = strlen(text);

    if (each == 0)
        parts = feed(feed(parts, NULL, 0, window), text, length, window);
    for (size_t at = 0; each > 0 && at < length; at += each)
        parts = feed(parts, text + at, each < length - at ? each : length - at, window);
    return end(parts, window);
}

/* The answer is known, the same however it is cut, and that of the whole load. */
static void check_text(const char *text, struct srec_loaded want, int line)
{
    struct window window, whole;

    memset(&whole, FILL, sizeof whole);
    check_loaded(srec_load_as(SREC_RECORDS, (const uint8_t *)text, strlen(text), 0, whole.memory, CELLS, whole.marks,
                              CELLS),
                 want, line);
    for (size_t each = 0; each <= strlen(text); each++) {
        check_loaded(in_parts(text, each, &window), want, line);
        check(memcmp(window.marks, whole.marks, CELLS) == 0, "marks as of the whole load", line);
        check(want.reason != 0 || memcmp(window.memory, whole.memory, CELLS) == 0, "memory as of the whole load", line);
    }
}

#define TEXT(text, want) check_text(text, want, __LINE__)

static void texts(void)
{
    TEXT("S00600004844521B\r\nS1050002AABB93\nS103FF00FD\nS9031234B6\n", titled(accepted(2, 2), "HDR", 3, 0x1234));
    TEXT("S1040000AA51\nS705FFFFFFFFFE", titled(accepted(1, 1), NULL, 0, UINT32_MAX));
    TEXT("", refusal(14, 0, 0, 0));
    TEXT("S1040000AA51\n\n", refusal(14, 0, 1, 14));
    TEXT("S9030000FC\nx", refusal(2, 0, 2, 11));
    TEXT("\r\ns9030000FC", refusal(4, 0, 1, 2));
    TEXT("S1040000AA51\nS90300G0FC", refusal(5, 0, 2, 19));
    TEXT("S10200FD", refusal(6, 0, 1, 0));
    TEXT("S00600004844521B\nS1040000AB51\nS9030000FC", refusal(7, 0x50, 2, 17));
    TEXT("S1040000AA51\nS0030000FC\n", refusal(8, 0, 2, 13));
    TEXT("S5030001FB\nS9030000FC", refusal(10, 0, 1, 0));
    TEXT("S105FFFF1122C9\n", refusal(11, 0, 1, 0));
    TEXT("S1040010AA41\nS9030000FC", refusal(12, 0, 1, 0));
    TEXT("S1040000AA51\n\nS1040000AA51\n", refusal(13, 0, 2, 14));
}

/* A record is stored when its line end has come, and not before; a refusal leaves it in memory, and clears the marks. */
static void when_it_is_stored(void)
{
    struct window window;
    struct srec_parts parts = begin(&window);

    CHECK(parts.reason == 0 && parts.total == 0 && all(window.marks, CELLS, 0) && all(window.memory, CELLS, FILL));
    parts = feed(parts, "S1040000AA51", 12, &window);
    CHECK(parts.reason == 0 && parts.total == 12 && all(window.marks, CELLS, 0));
    parts = feed(parts, "\n", 1, &window);
    CHECK(parts.reason == 0 && parts.total == 13 && window.marks[0] == 1 && window.memory[0] == 0xAA);
    struct srec_parts before = parts;
    parts = feed(parts, "S1040000BB40\n", 13, &window);
    CHECK(parts.reason == 13 && all(window.marks, CELLS, 0) && window.memory[0] == 0xAA);
    /* From then on nothing changes. */
    window.marks[1] = 1;
    parts = feed(parts, "S9030000FC\n", 11, &window);
    LOADED(end(parts, &window), refusal(13, 0, 2, 13));
    CHECK(window.marks[1] == 1 && window.memory[0] == 0xAA && all(window.memory + 1, CELLS - 1, FILL));
    /* A state is a value: the one before may be used again. A mark that the caller set is a cell that is taken. */
    parts = feed(before, "S1040001AA50\n", 13, &window);
    CHECK(parts.reason == 13 && all(window.marks, CELLS, 0));
}

/* Row 1 at the beginning, for another memory later, and for a state that cannot be; row 20 past 2^32 - 1 characters. */
static void refused_calls(void)
{
    struct window window;
    struct srec_parts parts = begin(&window), far;

    LOADED(srec_end(parts, 0, window.memory, CELLS - 1, window.marks, CELLS - 1).loaded, refusal(1, 0, 0, 0));
    CHECK(srec_feed(parts, NULL, 0, 0, window.memory, CELLS, window.marks, CELLS - 1).reason == 1);
    CHECK(srec_begin(0, window.memory, CELLS, window.marks, CELLS - 1).reason == 1);
    CHECK(srec_begin(UINT32_MAX, window.memory, CELLS, window.marks, CELLS).reason == 1);
    far = parts;
    far.number = 1;
    LOADED(end(far, &window), refusal(1, 0, 0, 0));
    far = parts;
    far.total = far.begins = UINT32_MAX;
    LOADED(end(far, &window), refusal(14, 0, 0, UINT32_MAX));
    LOADED(end(feed(far, NULL, 0, &window), &window), refusal(14, 0, 0, UINT32_MAX));
    LOADED(end(feed(far, "\n", 1, &window), &window), refusal(20, 0, 0, UINT32_MAX));
    far.total = far.begins = (size_t)UINT32_MAX + 1;
    LOADED(end(far, &window), refusal(1, 0, 0, 0));
}

/* Behind an accepted end the same end gives the same answer, and a record is one too many; a refused end stays refused. */
static void behind_the_end(void)
{
    const char text[] = "S1040000AA51\nS9031234B6";
    struct window window;
    struct srec_ended ended = srec_end(feed(begin(&window), text, sizeof text - 1, &window), 0, window.memory, CELLS,
                                       window.marks, CELLS);

    LOADED(ended.loaded, titled(accepted(1, 1), NULL, 0, 0x1234));
    CHECK(ended.parts.reason == 0 && ended.parts.total == 23);
    LOADED(end(ended.parts, &window), titled(accepted(1, 1), NULL, 0, 0x1234));
    LOADED(end(feed(ended.parts, "\r\n", 2, &window), &window), titled(accepted(1, 1), NULL, 0, 0x1234));
    LOADED(end(feed(ended.parts, "x", 1, &window), &window), refusal(2, 0, 3, 23));
    ended = srec_end(begin(&window), 0, window.memory, CELLS, window.marks, CELLS);
    LOADED(ended.loaded, refusal(14, 0, 0, 0));
    CHECK(ended.parts.reason == 14);
    LOADED(end(feed(ended.parts, text, sizeof text - 1, &window), &window), refusal(14, 0, 0, 0));
    CHECK(all(window.memory, CELLS, FILL) && all(window.marks, CELLS, 0));
}

int main(void)
{
    texts();
    when_it_is_stored();
    refused_calls();
    behind_the_end();
    return failures != 0;
}
