/* hostile CASES: calls each function so many times, with buffers, lengths and numbers that are drawn with little regard to
 * each other.
 *
 * Some of the buffers come from malloc and are just as long as the library is told, for valgrind. The others stand right
 * before or right behind a page that cannot be touched, so that an access outside of them ends the program without valgrind
 * too. What a call may not change must be as before, and it may answer its own rows alone. The cases depend on CASES only.
 */
#ifndef _GNU_SOURCE
#define _GNU_SOURCE
#endif
#include <stdlib.h>
#include <sys/mman.h>
#include <unistd.h>

#include "answer.h"

enum { MOST = 10, ROOM = 4096, LAST_ROW = 27, ENOUGH = 1000 };
/* A load in parts that was refused before: no call changes anything then. */
enum { SKIPPED = LAST_ROW + 1 };

/* A buffer that is lent to a call, and what it held before. */
struct lent {
    uint8_t *bytes;
    size_t length;
    uint8_t *heap;
    uint8_t before[ROOM];
};

static struct lent lent[MOST];

/* What a call is told besides buffers, and what it wrote. */
static struct {
    uint32_t format, base, address, has_entry, entry;
    size_t chips, wrote;
} told;

/* splitmix64, below `bound`. */
static size_t draw(size_t bound)
{
    static uint64_t state = 2;
    state += 0x9E3779B97F4A7C15u;
    uint64_t z = state;
    z = (z ^ (z >> 30)) * 0xBF58476D1CE4E5B9u;
    z = (z ^ (z >> 27)) * 0x94D049BB133111EBu;
    return (size_t)((z ^ (z >> 31)) % bound);
}

/* ---- buffers ---- */

/* The room of a buffer, between two pages that cannot be touched. */
static uint8_t *guarded(size_t number)
{
    static uint8_t *pages;
    size_t page = (size_t)sysconf(_SC_PAGESIZE), room = (ROOM + page - 1) / page * page;

    if (!pages) {
        void *got = mmap(NULL, MOST * (room + page) + page, PROT_NONE, MAP_PRIVATE | MAP_ANONYMOUS, -1, 0);
        pages = (uint8_t *)got;
        for (size_t i = 0; got != MAP_FAILED && i < MOST; i++)
            if (mprotect(pages + i * (room + page) + page, room, PROT_READ | PROT_WRITE) != 0)
                got = MAP_FAILED;
        if (got == MAP_FAILED) {
            perror("hostile");
            exit(2);
        }
    }
    return pages + number * (room + page) + page;
}

/* NULL in a third of the cases where there is no byte. */
static void place(size_t number, size_t length)
{
    struct lent *buffer = &lent[number];
    size_t page = (size_t)sysconf(_SC_PAGESIZE), room = (ROOM + page - 1) / page * page;
    size_t way = draw(3);

    buffer->length = length;
    buffer->heap = way == 0 && length > 0 ? (uint8_t *)malloc(length) : NULL;
    if (way == 0)
        buffer->bytes = buffer->heap;
    else
        buffer->bytes = guarded(number) + (way == 1 ? 0 : room - length);
    if (way == 0 && length > 0 && !buffer->heap)
        exit(2);
}

struct piece {
    const char *bytes;
    size_t length;
};

#define PIECE(bytes) {bytes, sizeof bytes - 1}

/* Pieces of texts and of sheets. The last four of texts are a symbol block and parts of one. */
static const struct piece records[] = {
    PIECE("S00600004844521B\n"), PIECE("S1040000AA51\n"), PIECE("S1050002AABB93\n"), PIECE("S1040009AA48\r\n"),
    PIECE("S306FFFFFFFF5AA3\n"), PIECE("S5030001FB\n"), PIECE("S104FFFF11EC\n"), PIECE("S1040000AB51\n"),
    PIECE("S105FFFF1122C9\n"), PIECE("S9030000FC\n"), PIECE("S9030000FC\n"), PIECE("S9030000FC\n"),
    PIECE("$$ M\na $2 b $FFFFFFF0\n$$\n"), PIECE("$$ M\n"), PIECE("a $2 b $FFFFFFFF\n"), PIECE("$$\n"),
};
static const struct piece lines[] = {
    PIECE(";01FFF0AA029A\r\n"), PIECE(";02FFFEAABB0364\n"), PIECE(";0100000A000B\r\n"), PIECE(";0000000000\n"),
    PIECE(";0000010001\r\n"), PIECE(";0000020002\x13"), PIECE(";FF"), PIECE(";01FFF0AA029B\n"),
    PIECE(";02FFFFAABB0365\n"),
};
static const struct piece fields[] = {
    PIECE("\1\0\1a\2\0\2\xAA\xBB"), PIECE("\1\0\4b+$1\2\0\1\xCC"), PIECE("\1\0\4a-$1\2\0\0"),
    PIECE("\1\0\2$7\2\0\1\xEE"), PIECE("\1\0\4a-$3\2\0\0"), PIECE("\1\0\1x"), PIECE("\1\0\3(a)"), PIECE("\2\0\1\xDD"),
};

enum { RECORDS = sizeof records / sizeof records[0], LINES = sizeof lines / sizeof lines[0],
       FIELDS = sizeof fields / sizeof fields[0], BLOCK = RECORDS - 4 };

/* Whether a text is to be one of a tape's lines; seldom it is what was not asked for. */
static int draw_lines(char kind)
{
    int wanted = kind == 'l' || (kind == 't' && told.format <= SREC_TAPE_SUM);
    return draw(8) ? wanted : !wanted;
}

/* Pieces, one behind the other, as far as they fit, and line ends; in half of the texts any bytes between them. */
static void fill_text(struct lent *buffer, char kind)
{
    const struct piece *pieces = kind == 's' ? fields : draw_lines(kind) ? lines : records;
    size_t number = pieces == fields ? FIELDS : pieces == lines ? LINES : draw(4) ? BLOCK : RECORDS;
    int odd = draw(2) == 0, block = kind == 'b' && draw(8) > 0;

    for (size_t at = 0; at < buffer->length;) {
        const struct piece *piece = at == 0 && block ? &records[BLOCK] : &pieces[draw(number)];
        if (piece->length > buffer->length - at || (odd && draw(8) == 0)) {
            buffer->bytes[at++] = (uint8_t)(odd ? draw(256) : '\n');
            continue;
        }
        memcpy(buffer->bytes + at, piece->bytes, piece->length);
        at += piece->length;
    }
}

/* Texts and sheets of pieces; marks of 0 and 1, seldom another; all else any byte. */
static void fill(struct lent *buffer, char kind)
{
    int odd = draw(8) == 0;

    if (strchr("trlbs", kind))
        fill_text(buffer, kind);
    else
        for (size_t i = 0; i < buffer->length; i++)
            buffer->bytes[i] = (uint8_t)(strchr("kKJP", kind) && (!odd || draw(8)) ? draw(2) : draw(256));
    if (buffer->length > 0)
        memcpy(buffer->before, buffer->bytes, buffer->length);
}

static size_t draw_length(char kind, size_t number, int chips, size_t cells)
{
    if (draw(60) == 0)
        return draw(ROOM + 1);
    if (strchr("trlb", kind))
        return draw(draw(4) ? 90 : 700);
    if (kind == 's')
        return draw(3) * (draw(2) ? 9 : draw(12));
    if (kind == 'h')
        return draw(6) ? draw(2) * draw(12) : 250 + draw(6);
    if (kind == 'O')
        return draw(4) ? 600 + draw(2000) : draw(200);
    if (!chips || number < 2)
        return cells;
    return told.chips > 0 && (number - 2) / 2 < told.chips ? cells / told.chips : 0;
}

static void draw_numbers(void)
{
    static const uint32_t bases[] = {0, 0, 0, 4, 0xFFF0, 0xFFFFFF00, 0xFFFFFFF0, UINT32_MAX};
    static const size_t chips[] = {2, 4, 2, 4, 2, 4, 0, 1, 3, SIZE_MAX};

    told.format = draw(4) ? (uint32_t)draw(3) : (uint32_t)draw(SIZE_MAX);
    told.base = draw(8) ? bases[draw(8)] : (uint32_t)draw(SIZE_MAX);
    told.address = draw(4) ? (uint32_t)(draw(2) ? draw(4) : 0xFFFF - draw(16)) : (uint32_t)draw(SIZE_MAX);
    told.has_entry = draw(4) ? (uint32_t)draw(2) : (uint32_t)draw(SIZE_MAX);
    told.entry = (uint32_t)draw(SIZE_MAX);
    told.chips = draw(16) ? chips[draw(10)] : draw(SIZE_MAX);
    told.wrote = 0;
}

/* ---- calls ---- */

#define LENT(i) lent[i].bytes, lent[i].length

/* A refusal answers nothing else, and no answer has bytes behind its header. */
static uint32_t row_of(struct srec_loaded got)
{
    CHECK(got.header_len <= sizeof got.header && got.has_entry <= 1 && got.want <= 255);
    CHECK(got.want == 0 || got.reason == 7);
    CHECK(all(got.header + got.header_len, sizeof got.header - got.header_len, 0));
    CHECK(got.reason == 0 ? got.record == 0 && got.place == 0
                          : got.records == 0 && got.cells == 0 && got.has_entry == 0 && got.header_len == 0);
    CHECK(got.has_entry == 1 || got.entry == 0);
    return got.reason;
}

static uint32_t load_as(void)
{
    return row_of(srec_load_as(told.format, LENT(0), told.base, LENT(1), LENT(2)));
}

static uint32_t load_behind(void)
{
    return row_of(srec_load_behind(LENT(0), told.base, LENT(1), LENT(2)));
}

static uint32_t load_sheet(void)
{
    return row_of(srec_load_sheet(LENT(0), LENT(1), told.base, LENT(2), LENT(3)));
}

static uint32_t merge(void)
{
    return row_of(srec_merge(told.base, LENT(0), LENT(1), LENT(2), told.has_entry, told.entry, LENT(3), LENT(4), LENT(5),
                             told.has_entry >> 1, told.address));
}

static uint32_t deal(void)
{
    return row_of(srec_deal(told.chips, told.base, LENT(0), LENT(1), LENT(2), LENT(3), LENT(4), LENT(5), LENT(6),
                            LENT(7), LENT(8), LENT(9)));
}

static uint32_t collect(void)
{
    return row_of(srec_collect(told.chips, told.base, LENT(0), LENT(1), LENT(2), LENT(3), LENT(4), LENT(5), LENT(6),
                               LENT(7), LENT(8), LENT(9)));
}

/* A state that no call need have given out: any bytes, or the numbers of the beginning with some of them changed. */
static struct srec_parts draw_state(size_t size)
{
    struct srec_parts parts;
    uint8_t *bytes = (uint8_t *)&parts;
    size_t *numbers[] = {&parts.size, &parts.total, &parts.begins, &parts.number, &parts.records, &parts.cells,
                         &parts.head, &parts.held};
    int any = draw(4) == 0;

    for (size_t i = 0; i < sizeof parts; i++)
        bytes[i] = (uint8_t)(any ? draw(256) : 0);
    if (any && draw(2))
        return parts;
    parts.reason = draw(16) ? 0 : (uint32_t)draw(SIZE_MAX);
    for (size_t i = 0; i < sizeof numbers / sizeof numbers[0]; i++)
        *numbers[i] = draw(3) ? 0 : draw(16) ? draw(600) : draw(SIZE_MAX);
    parts.size = draw(16) ? size : draw(ROOM);
    parts.total = draw(2) ? UINT32_MAX - draw(600) : 600 + draw(600);
    parts.begins = draw(4) ? parts.total - parts.held : draw(SIZE_MAX);
    if (draw(2))
        memcpy(parts.line, "S1040000AA51", 12);
    return parts;
}

/* Of a refused state nothing is known but its number; of all others the numbers are as small as the text is long. */
static uint32_t state_row(struct srec_parts before, struct srec_parts after)
{
    CHECK(before.reason == 0 || after.reason == before.reason);
    CHECK(after.reason != 0 || (after.total <= UINT32_MAX && after.number <= after.total));
    return before.reason == 0 ? after.reason : (uint32_t)SKIPPED;
}

static uint32_t begin_parts(void)
{
    struct srec_parts none = {0, 0, 0, 0, 0, 0, 0, 0, 0, 0, 0, 0, 0, 0, 0, {0}, {0}};
    return state_row(none, srec_begin(told.base, LENT(0), LENT(1)));
}

static uint32_t feed_parts(void)
{
    struct srec_parts state = draw_state(lent[1].length);
    return state_row(state, srec_feed(state, LENT(0), told.base, LENT(1), LENT(2)));
}

static uint32_t end_parts(void)
{
    struct srec_parts state = draw_state(lent[0].length);
    struct srec_ended ended = srec_end(state, told.base, LENT(0), LENT(1));
    struct srec_loaded got = ended.loaded;
    CHECK(state_row(state, ended.parts) == (state.reason == 0 ? got.reason : (uint32_t)SKIPPED));
    CHECK(state.reason == 0 || (got.reason == state.reason && got.record == state.record && got.place == state.place));
    return state.reason == 0 ? row_of(got) : (uint32_t)SKIPPED;
}

static uint32_t write_as(void)
{
    struct srec_written got = srec_write_as(told.format, told.base, LENT(0), LENT(1), LENT(2), told.has_entry,
                                            told.entry, LENT(3));
    CHECK(got.reason == 0 ? got.length <= lent[3].length && got.place == 0 : got.length == 0);
    CHECK(got.reason != 17 || got.place > lent[3].length);
    told.wrote = got.length;
    return got.reason;
}

static uint32_t room(void)
{
    struct srec_written got =
        srec_room(told.format, told.base, LENT(0), LENT(1), LENT(2), told.has_entry, told.entry);
    CHECK(got.reason == 0 ? got.length >= 13 && got.place == 0 : got.length == 0 && got.place <= lent[1].length);
    return got.reason;
}

static uint32_t span(void)
{
    struct srec_range got = srec_span(told.format, LENT(0));
    CHECK(got.any <= 1 && got.lowest <= got.highest && got.highest <= UINT32_MAX && (got.any || got.highest == 0));
    return !got.any;
}

static uint32_t where(void)
{
    struct srec_origin got = srec_where(told.format, LENT(0), told.address);
    CHECK(got.record <= lent[0].length && got.place <= lent[0].length && got.byte <= 255);
    CHECK(got.record > 0 || (got.place == 0 && got.byte == 0));
    return got.record == 0;
}

static uint32_t behind(void)
{
    size_t got = srec_behind(LENT(0));
    CHECK(got <= lent[0].length);
    return got == lent[0].length;
}

static uint32_t span_sheet(void)
{
    struct srec_range got = srec_span_sheet(LENT(0), LENT(1));
    CHECK(got.any <= 1 && got.lowest <= got.highest && got.lowest <= UINT32_MAX);
    CHECK(got.highest < (uint64_t)UINT32_MAX + 65535 && (got.any || got.highest == 0));
    return !got.any;
}

static uint32_t load(void)
{
    return srec_load(LENT(0), told.base, LENT(1), LENT(2));
}

static uint32_t load_tape(void)
{
    return srec_load_tape(told.format, LENT(0), told.base, LENT(1), LENT(2));
}

/* Which row it was is not told here. */
static uint32_t write_row(size_t length)
{
    told.wrote = length;
    return length == 0;
}

static uint32_t write_records(void)
{
    return write_row(srec_write(told.base, LENT(0), LENT(1), LENT(2), told.entry, LENT(3)));
}

static uint32_t write_tape(void)
{
    return write_row(srec_write_tape(told.format, told.base, LENT(0), LENT(1), LENT(2)));
}

/* `kinds` has a letter for each buffer: t text of the format, r S-records, l tape, b block and S-records, s sheet, m memory,
 * k marks, h header; capital letters are changed, O is the output, J are marks that a refusal leaves, and N and P are memory
 * and marks of a load in parts. `rows` are those that may come up, besides 0. */
struct call {
    const char *name, *kinds;
    uint32_t (*run)(void);
    uint32_t rows;
};

#define ROWS(from, to) ((uint32_t)(((uint64_t)2 << (to)) - ((uint64_t)1 << (from))))

static const struct call calls[] = {
    {"srec_load_as", "tMK", load_as, ROWS(1, 8) | ROWS(10, 14)},
    {"srec_write_as", "mkhO", write_as, ROWS(1, 1) | ROWS(11, 11) | ROWS(15, 19)},
    {"srec_room", "mkh", room, ROWS(1, 1) | ROWS(11, 11) | ROWS(15, 16) | ROWS(18, 19)},
    {"srec_span", "t", span, ROWS(1, 1)},
    {"srec_where", "t", where, ROWS(1, 1)},
    {"srec_merge", "MJhmkh", merge, ROWS(1, 1) | ROWS(15, 16)},
    {"srec_deal", "mkMJMJMJMJ", deal, ROWS(1, 1) | ROWS(16, 16) | ROWS(21, 21)},
    {"srec_collect", "MJmkmkmkmk", collect, ROWS(1, 1) | ROWS(16, 16) | ROWS(21, 21)},
    {"srec_load_behind", "bMK", load_behind, ROWS(1, 8) | ROWS(10, 14) | ROWS(22, 24)},
    {"srec_load_sheet", "bsMK", load_sheet, ROWS(1, 1) | ROWS(12, 13) | ROWS(22, 27)},
    {"srec_behind", "b", behind, ROWS(1, 1)},
    {"srec_span_sheet", "bs", span_sheet, ROWS(1, 1)},
    {"srec_begin", "mP", begin_parts, ROWS(1, 1)},
    {"srec_feed", "rNP", feed_parts, ROWS(1, 8) | ROWS(10, 13) | ROWS(20, 20)},
    {"srec_end", "NP", end_parts, ROWS(1, 8) | ROWS(10, 14)},
    {"srec_load", "rMK", load, ROWS(1, 8) | ROWS(10, 14)},
    {"srec_write", "mkhO", write_records, ROWS(1, 1)},
    {"srec_load_tape", "lMK", load_tape, ROWS(1, 7) | ROWS(10, 14)},
    {"srec_write_tape", "mkO", write_tape, ROWS(1, 1)},
};

enum { CALLS = sizeof calls / sizeof calls[0] };

/* ---- cases ---- */

/* What a call was lent to read, and what a refused one was lent to change, is as before; a refused load clears marks. */
static void check_buffer(const struct lent *buffer, char kind, uint32_t row)
{
    size_t from = kind == 'O' ? told.wrote : 0;

    if (kind == 'K' && row != 0)
        CHECK(all(buffer->bytes, buffer->length, 0));
    else if (strchr("KJ", kind))
        for (size_t i = 0; i < buffer->length; i++)
            CHECK(row != 0 ? buffer->bytes[i] == buffer->before[i] : buffer->bytes[i] <= 1);
    else if (kind == 'P' && row > 0 && row != SKIPPED)
        CHECK(all(buffer->bytes, buffer->length, 0));
    else if (row != SKIPPED && strchr("NP", kind))
        return;
    else if (from < buffer->length && (kind != 'M' || row != 0))
        CHECK(memcmp(buffer->bytes + from, buffer->before + from, buffer->length - from) == 0);
}

static uint32_t run_case(const struct call *call)
{
    size_t buffers = strlen(call->kinds), cells = 4 * draw(draw(2) ? 5 : 70);

    draw_numbers();
    for (size_t i = 0; i < buffers; i++) {
        place(i, draw_length(call->kinds[i], i, buffers == MOST, cells));
        fill(&lent[i], call->kinds[i]);
    }
    uint32_t row = call->run();
    CHECK(row == 0 || row == SKIPPED || (row <= LAST_ROW && (call->rows >> row & 1)));
    for (size_t i = 0; i < buffers; i++) {
        check_buffer(&lent[i], call->kinds[i], row);
        free(lent[i].heap);
    }
    return row;
}

/* Prints how often each row came up; of many cases some must have been accepted and some refused. */
static void run_call(const struct call *call, unsigned long cases)
{
    unsigned long rows[SKIPPED + 1] = {0};

    for (unsigned long i = 0; i < cases && failures == 0; i++) {
        uint32_t row = run_case(call);
        rows[row <= SKIPPED ? row : 0]++;
        if (failures > 0)
            printf("case %lu of %s, row %lu\n", i, call->name, (unsigned long)row);
    }
    CHECK(cases < ENOUGH || (rows[0] > 0 && rows[0] < cases));
    printf("%s", call->name);
    for (unsigned row = 0; row <= LAST_ROW; row++)
        if (rows[row] > 0)
            printf(" %u: %lu", row, rows[row]);
    printf("\n");
}

int main(int argc, char **argv)
{
    unsigned long cases = argc == 2 ? strtoul(argv[1], NULL, 10) : 0;

    if (cases == 0) {
        fputs("usage: hostile CASES\n", stderr);
        return 2;
    }
    for (size_t i = 0; i < CALLS; i++)
        run_call(&calls[i], cases);
    return failures != 0;
}
