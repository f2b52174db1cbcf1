/* images: patches over a base and images over chips, on windows of a few cells.
 *
 * What is expected was worked out by hand from docs/FORMAT.md, sections 13 and 16. */
#include "answer.h"

enum { FILL = 0x77, LONGEST_HEADER = 252 };

/* ---- patches over a base ---- */

enum { CELLS = 4, BASE = 0x10 };

/* A window with header and entry; the lengths are what the library is told. */
struct image {
    uint8_t memory[CELLS], marks[CELLS];
    size_t memory_len, marks_len, header_len;
    uint8_t header[LONGEST_HEADER + 1];
    uint32_t has_entry, entry;
};

static struct image image(const char *memory, const char *marks)
{
    struct image made;
    memset(&made, 0, sizeof made);
    memcpy(made.memory, memory, CELLS);
    memcpy(made.marks, marks, CELLS);
    made.memory_len = made.marks_len = CELLS;
    return made;
}

static struct image make_base(void)
{
    return image("\1\2\3\4", "\1\0\1\0");
}

static struct image make_patch(void)
{
    return image("\11\10\7\6", "\0\1\1\0");
}

static struct srec_loaded merge(uint32_t at, struct image *base, const struct image *patch)
{
    return srec_merge(at, base->memory, base->memory_len, base->marks, base->marks_len, base->header, base->header_len,
                      base->has_entry, base->entry, patch->memory, patch->memory_len, patch->marks, patch->marks_len,
                      patch->header, patch->header_len, patch->has_entry, patch->entry);
}

/* Marked cells of the patch win; the byte 2 below a new mark goes, the byte 4 without one stays. */
static void merge_cells(void)
{
    struct image base = make_base(), patch = make_patch(), before = patch;

    LOADED(merge(BASE, &base, &patch), accepted(0, 0));
    CHECK(memcmp(base.memory, "\1\10\7\4", CELLS) == 0);
    CHECK(memcmp(base.marks, "\1\1\1\0", CELLS) == 0);
    CHECK(memcmp(&patch, &before, sizeof patch) == 0);
    /* The window may end at the top of the addresses. */
    LOADED(merge(UINT32_MAX - CELLS + 1, &base, &patch), accepted(0, 0));
}

/* Those of the patch win if it has them: a header counts by its length, and the entry 0 is one. */
static void merge_titles(void)
{
    struct image base = make_base(), patch = make_patch();

    patch.entry = 5;
    LOADED(merge(BASE, &base, &patch), accepted(0, 0));
    base.header[0] = 'B';
    base.header_len = 1;
    base.has_entry = 7;
    base.entry = 0x12345678;
    LOADED(merge(BASE, &base, &patch), titled(accepted(0, 0), "B", 1, 0x12345678));
    patch.header_len = 2;
    LOADED(merge(BASE, &base, &patch), titled(accepted(0, 0), "\0\0", 2, 0x12345678));
    patch.has_entry = 1;
    patch.entry = 0;
    LOADED(merge(BASE, &base, &patch), titled(accepted(0, 0), "\0\0", 2, 0));
    base.has_entry = 0;
    base.header_len = LONGEST_HEADER;
    patch.header_len = 0;
    LOADED(merge(BASE, &base, &patch), titled(accepted(0, 0), base.header, LONGEST_HEADER, 0));
}

/* A refused merge changes nothing and answers neither header nor entry. */
static void check_refused(uint32_t at, struct image base, const struct image *patch, uint32_t reason, size_t place,
                          int line)
{
    struct image before = base;

    base.has_entry = before.has_entry = 1;
    check_loaded(merge(at, &base, patch), refusal(reason, 0, 0, place), line);
    check(memcmp(&base, &before, sizeof base) == 0, "the base as before", line);
}

#define REFUSED(at, base, patch, reason, place) check_refused(at, base, patch, reason, place, __LINE__)

/* Row 1 for any two lengths that differ, or past the top. */
static void merge_row_1(void)
{
    struct image base = make_base(), patch = make_patch();
    size_t *lengths[] = {&base.memory_len, &base.marks_len, &patch.memory_len, &patch.marks_len};

    for (size_t i = 0; i < 4; i++) {
        (*lengths[i])--;
        REFUSED(BASE, base, &patch, 1, 0);
        (*lengths[i])++;
    }
    REFUSED(UINT32_MAX - CELLS + 2, base, &patch, 1, 0);
}

/* Row 15 for either header, 16 for the marks of the base and then of the patch; 1 comes before 15, and that before 16. */
static void merge_rows_15_and_16(void)
{
    struct image base = make_base(), patch = make_patch();

    patch.marks[1] = 2;
    REFUSED(BASE, base, &patch, 16, 1);
    base.marks[3] = 255;
    REFUSED(BASE, base, &patch, 16, 3);
    patch.header_len = 1;
    base.header_len = LONGEST_HEADER + 1;
    REFUSED(BASE, base, &patch, 15, 0);
    base.header_len = 0;
    patch.header_len = LONGEST_HEADER + 1;
    REFUSED(BASE, base, &patch, 15, 0);
    base.marks_len--;
    REFUSED(BASE, base, &patch, 1, 0);
}

/* ---- images over chips ---- */

enum { MOST = 8, CHIPS = 4 };

/* The whole and four chips; the lengths are what the library is told. */
struct board {
    uint8_t memory[MOST], marks[MOST];
    uint8_t chip[CHIPS][MOST], chip_marks[CHIPS][MOST];
    size_t memory_len, marks_len, chip_len[CHIPS], chip_marks_len[CHIPS];
};

/* A whole of so many cells, and as many chips of the right lengths. All is FILL. */
static struct board make_board(size_t chips, size_t cells)
{
    struct board board;
    memset(&board, FILL, sizeof board);
    board.memory_len = board.marks_len = cells;
    for (size_t i = 0; i < CHIPS; i++)
        board.chip_len[i] = board.chip_marks_len[i] = i < chips ? cells / chips : 0;
    return board;
}

static struct srec_loaded deal(size_t chips, uint32_t base, struct board *b)
{
    return srec_deal(chips, base, b->memory, b->memory_len, b->marks, b->marks_len, b->chip[0], b->chip_len[0],
                     b->chip_marks[0], b->chip_marks_len[0], b->chip[1], b->chip_len[1], b->chip_marks[1],
                     b->chip_marks_len[1], b->chip[2], b->chip_len[2], b->chip_marks[2], b->chip_marks_len[2],
                     b->chip[3], b->chip_len[3], b->chip_marks[3], b->chip_marks_len[3]);
}

static struct srec_loaded collect(size_t chips, uint32_t base, struct board *b)
{
    return srec_collect(chips, base, b->memory, b->memory_len, b->marks, b->marks_len, b->chip[0], b->chip_len[0],
                        b->chip_marks[0], b->chip_marks_len[0], b->chip[1], b->chip_len[1], b->chip_marks[1],
                        b->chip_marks_len[1], b->chip[2], b->chip_len[2], b->chip_marks[2], b->chip_marks_len[2],
                        b->chip[3], b->chip_len[3], b->chip_marks[3], b->chip_marks_len[3]);
}

/* The even cells go to chip 0. The third is not marked, so the byte of chip 0 stays as it was. */
static void over_two_chips(void)
{
    struct board board = make_board(2, 4);

    memcpy(board.memory, "\xA0\xA1\xA2\xA3", 4);
    memcpy(board.marks, "\1\1\0\1", 4);
    LOADED(deal(2, 0x10, &board), accepted(0, 0));
    CHECK(memcmp(board.chip[0], "\xA0\x77", 2) == 0 && memcmp(board.chip_marks[0], "\1\0", 2) == 0);
    CHECK(memcmp(board.chip[1], "\xA1\xA3", 2) == 0 && memcmp(board.chip_marks[1], "\1\1", 2) == 0);
    CHECK(all(board.chip[2], 2 * MOST, FILL) && all(board.chip_marks[2], 2 * MOST, FILL));
    memset(board.memory, FILL, MOST);
    memset(board.marks, FILL, MOST);
    LOADED(collect(2, 0x10, &board), accepted(0, 0));
    CHECK(memcmp(board.memory, "\xA0\xA1\x77\xA3\x77", 5) == 0);
    CHECK(memcmp(board.marks, "\1\1\0\1\x77", 5) == 0);
}

static void over_four_chips(void)
{
    struct board board = make_board(4, 8);

    memcpy(board.memory, "\0\1\2\3\4\5\6\7", 8);
    memcpy(board.marks, "\1\1\1\1\1\1\1\1", 8);
    LOADED(deal(4, 4, &board), accepted(0, 0));
    for (size_t i = 0; i < CHIPS; i++) {
        CHECK(board.chip[i][0] == i && board.chip[i][1] == i + 4 && board.chip[i][2] == FILL);
        CHECK(all(board.chip_marks[i], 2, 1) && board.chip_marks[i][2] == FILL);
    }
    memset(board.memory, FILL, MOST);
    LOADED(collect(4, UINT32_MAX - 7, &board), accepted(0, 0));
    CHECK(memcmp(board.memory, "\0\1\2\3\4\5\6\7", 8) == 0 && all(board.marks, 8, 1));
    /* No cells are a multiple too. */
    board = make_board(4, 0);
    LOADED(deal(4, 8, &board), accepted(0, 0));
    LOADED(collect(4, 8, &board), accepted(0, 0));
}

/* Both ways; nothing is changed. */
static void check_chips(size_t chips, uint32_t base, struct board board, uint32_t reason, int line)
{
    struct board before = board;

    check_loaded(deal(chips, base, &board), refusal(reason, 0, 0, 0), line);
    check_loaded(collect(chips, base, &board), refusal(reason, 0, 0, 0), line);
    check(memcmp(&board, &before, sizeof board) == 0, "the board as before", line);
}

#define REFUSED_CHIPS(chips, base, board, reason) check_chips(chips, base, board, reason, __LINE__)

/* Row 21, before all others: the marks here are bad, and the lengths too. */
static void row_21(void)
{
    const size_t bad[] = {0, 1, 3, 5, 8, ((size_t)1 << 32) + 2, SIZE_MAX};

    for (size_t i = 0; i < sizeof bad / sizeof bad[0]; i++)
        REFUSED_CHIPS(bad[i], 0, make_board(1, 8), 21);
    REFUSED_CHIPS(2, 1, make_board(2, 4), 21);
    REFUSED_CHIPS(2, 0, make_board(1, 3), 21);
    REFUSED_CHIPS(4, 2, make_board(4, 8), 21);
    REFUSED_CHIPS(4, 0, make_board(4, 6), 21);
}

/* Row 1, before 16: the marks here are bad. */
static void chips_row_1(void)
{
    struct board board = make_board(2, 4);
    size_t *lengths[] = {&board.marks_len, &board.chip_len[0], &board.chip_marks_len[0], &board.chip_len[1],
                         &board.chip_marks_len[1], &board.chip_len[2], &board.chip_marks_len[2], &board.chip_len[3],
                         &board.chip_marks_len[3]};

    for (size_t i = 0; i < sizeof lengths / sizeof lengths[0]; i++) {
        (*lengths[i])++;
        REFUSED_CHIPS(2, 0, board, 1);
        (*lengths[i])--;
    }
    REFUSED_CHIPS(2, UINT32_MAX - 1, board, 1);
    REFUSED_CHIPS(4, 0, board, 1);
}

/* Row 16: of a deal the whole's lowest index, of a collect the lowest chip first and the index there. */
static void chips_row_16(void)
{
    struct board board = make_board(2, 4), before;

    memcpy(board.marks, "\1\0\2\3", 4);
    before = board;
    LOADED(deal(2, 0, &board), refusal(16, 0, 0, 2));
    CHECK(memcmp(&board, &before, sizeof board) == 0);
    memcpy(board.chip_marks[0], "\1\2", 2);
    memcpy(board.chip_marks[1], "\2\0", 2);
    before = board;
    LOADED(collect(2, 0, &board), refusal(16, 0, 0, 1));
    board.chip_marks[0][1] = 0;
    LOADED(collect(2, 0, &board), refusal(16, 0, 0, 0));
    CHECK(memcmp(board.memory, before.memory, MOST) == 0 && memcmp(board.marks, before.marks, MOST) == 0);
}

int main(void)
{
    merge_cells();
    merge_titles();
    merge_row_1();
    merge_rows_15_and_16();
    over_two_chips();
    over_four_chips();
    row_21();
    chips_row_1();
    chips_row_16();
    return failures != 0;
}
