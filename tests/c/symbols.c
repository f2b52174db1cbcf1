/* symbols: texts behind a symbol block, and patch sheets by symbol names.
 *
 * What is expected was worked out by hand from docs/FORMAT.md, sections 17 and 18. */
#include <stdio.h>

#include "answer.h"

enum { CELLS = 16, FILL = 0x77 };

struct window {
    uint8_t memory[CELLS];
    uint8_t marks[CELLS];
};

static void check_nothing_loaded(const struct window *window)
{
    CHECK(all(window->memory, CELLS, FILL));
    CHECK(all(window->marks, CELLS, 0));
}

/* Which cells are marked: so many from one on, and all others as before. */
static void check_cells(const struct window *window, size_t from, const char *bytes, size_t number)
{
    CHECK(memcmp(window->memory + from, bytes, number) == 0);
    for (size_t i = 0; i < CELLS; i++) {
        int inside = i >= from && i < from + number;
        CHECK(window->marks[i] == inside && (inside || window->memory[i] == FILL));
    }
}

/* ---- texts behind a block ---- */

static struct srec_loaded load_behind(const char *text, struct window *window)
{
    memset(window, FILL, sizeof *window);
    return srec_load_behind((const uint8_t *)text, strlen(text), 0, window->memory, CELLS, window->marks, CELLS);
}

/* The symbols are checked and not used. The title may be a symbol's name too. */
static void behind_accepted(void)
{
    struct window window;

    LOADED(load_behind("$$ MAIN\nstart $100 MAIN $1F00\nend   $FFFFFFFF\n$$\nS00600004844521B\nS1050002AABB93\nS9031234B6",
                       &window),
           titled(accepted(1, 2), "HDR", 3, 0x1234));
    check_cells(&window, 2, "\xAA\xBB", 2);
    LOADED(load_behind("\r\n$$ a\r\n\r\n$$\r\nS9030000FC\r\n", &window), titled(accepted(0, 0), NULL, 0, 0));
}

struct refused {
    uint32_t reason, want;
    size_t record, place;
    const char *text;
};

/* Rows 22 and 23 with lines and places of the text; the others with records and places from right behind the bare $$. */
static void behind_refused(void)
{
    static const struct refused refused[] = {
        {22, 0, 0, 0, ""},
        {22, 0, 1, 0, "S9030000FC"},
        {22, 0, 1, 0, "$$\nS9030000FC"},
        {22, 0, 1, 0, "$$ 1a\n$$"},
        {22, 0, 2, 6, "\n$$ M\nbad\n$$"},
        {22, 0, 2, 5, "$$ M\na $1 b $2 c $3 d $4 e $5\n$$"},
        {22, 0, 3, 10, "$$ M\na $1\nb $123456789\n$$"},
        {22, 0, 2, 5, "$$ M\na2345678901234567 $1\n$$"},
        {22, 0, 2, 5, "$$ M\n $$"},
        {22, 0, 2, 9, "$$ M\na $1"},
        {22, 0, 2, 10, "$$ M\na $1\n"},
        {23, 0, 3, 10, "$$ M\na $1\na $2\n$$"},
        {23, 0, 2, 5, "$$ M\na $1 b $2 a $1\n$$"},
        {4, 0, 1, 1, "$$ M\n$$\nx"},
        {7, 0xFC, 2, 14, "$$ M\n$$\nS1040000AA51\nS9030000FD"},
        {12, 0, 1, 1, "$$ M\n$$\nS1040010AA41\nS9030000FC"},
        {13, 0, 2, 15, "$$ M\n$$\r\nS1040000AA51\nS1040000AA51"},
        {14, 0, 0, 0, "$$ M\n$$"},
        {14, 0, 0, 2, "$$ M\n$$\r\n"},
        {14, 0, 1, 13, "$$ M\n$$\nS1040000AA51"},
    };
    struct window window;

    for (size_t i = 0; i < sizeof refused / sizeof refused[0]; i++) {
        int before = failures;
        LOADED(load_behind(refused[i].text, &window),
               refusal(refused[i].reason, refused[i].want, refused[i].record, refused[i].place));
        check_nothing_loaded(&window);
        if (failures != before)
            printf("text %s\n", refused[i].text);
    }
}

/* Lines of four symbols each, so many lines, and then a line of one. Gives the place of that line. */
static size_t put_block(char *text, unsigned lines)
{
    size_t place = (size_t)sprintf(text, "$$ M\n");

    for (unsigned i = 0; i < lines; i++)
        place += (size_t)sprintf(text + place, "a%u $0 b%u $0 c%u $0 d%u $0\n", i, i, i, i);
    strcpy(text + place, "last $2\n$$\nS9030000FC");
    return place;
}

/* Row 24: 255 lines of four and one more are 1,021 symbols; 256 lines of four are all that a block can have. */
static void too_many_symbols(void)
{
    static char text[16384];
    struct window window;

    put_block(text, 255);
    LOADED(load_behind(text, &window), titled(accepted(0, 0), NULL, 0, 0));
    size_t place = put_block(text, 256);
    LOADED(load_behind(text, &window), refusal(24, 0, 258, place));
    check_nothing_loaded(&window);
    strcpy(text + place, "$$\nS9030000FC");
    LOADED(load_behind(text, &window), titled(accepted(0, 0), NULL, 0, 0));
}

/* The records begin right behind the bare $$, with its line end; a refused block is as long as the text. */
static void where_the_records_begin(void)
{
    static const struct {
        size_t place;
        const char *text;
    } texts[] = {
        {7, "$$ M\n$$\nS9030000FC"}, {7, "$$ M\n$$"}, {14, "\n$$ M\r\na $1\n$$\r\n$$\n"}, {0, ""}, {10, "S9030000FC"},
        {9, "$$ M\na $1"}, {17, "$$ M\na $1\na $2\n$$"},
    };

    for (size_t i = 0; i < sizeof texts / sizeof texts[0]; i++)
        CHECK(srec_behind((const uint8_t *)texts[i].text, strlen(texts[i].text)) == texts[i].place);
}

/* ---- patch sheets ---- */

static const uint8_t block[] = "$$ M\nt $2 u $FFFFFFFF\n$$\nnothing behind it is read";

static struct srec_loaded load_sheet(const char *sheet, size_t length, uint32_t base, struct window *window)
{
    memset(window, FILL, sizeof *window);
    return srec_load_sheet(block, sizeof block - 1, (const uint8_t *)sheet, length, base, window->memory, CELLS,
                           window->marks, CELLS);
}

#define SHEET(bytes, base, window) load_sheet(bytes, sizeof bytes - 1, base, window)

/* Each pair is a data record; the header is empty and there is no entry. */
static void sheet_accepted(void)
{
    struct window window;

    LOADED(SHEET("\1\0\4t+$1\2\0\2\x0A\x0B", 0, &window), accepted(1, 2));
    check_cells(&window, 3, "\x0A\x0B", 2);
    LOADED(SHEET("", 0, &window), accepted(0, 0));
    check_cells(&window, 0, "", 0);
    /* A pair without bytes is one, wherever it lies: 2 + 0F hex here, outside; and 0C hex less is the cell 5. */
    LOADED(SHEET("\1\0\17t+(u-$fffffff0)\2\0\0", 0, &window), accepted(1, 0));
    LOADED(SHEET("\1\0\24t+(u-$fffffff0)-$00C\2\0\1\xEE\1\0\1u\2\0\0", 0, &window), accepted(2, 1));
    check_cells(&window, 5, "\xEE", 1);
    LOADED(SHEET("\1\0\1u\2\0\1\xEE", UINT32_MAX - CELLS + 1, &window), accepted(1, 1));
    check_cells(&window, CELLS - 1, "\xEE", 1);
}

struct bad_sheet {
    uint32_t reason;
    size_t record, place, length;
    const char *sheet;
};

/* Rows 25 to 27, 12 and 13, with the field's number and the place of its tag. */
static void sheet_refused(void)
{
    static const struct bad_sheet refused[] = {
        {25, 1, 0, 1, "\1"},
        {25, 1, 0, 4, "\1\0\1t"},
        {25, 1, 0, 4, "\1\0\2t"},
        {25, 1, 0, 7, "\3\0\1t\2\0\0"},
        {25, 1, 0, 6, "\1\0\0\2\0\0"},
        {25, 1, 0, 8, "\1\0\2t+\2\0\0"},
        {25, 1, 0, 8, "\1\0\2x+\2\0\0"},
        {25, 2, 4, 7, "\1\0\1t\1\0\0"},
        {25, 2, 4, 8, "\1\0\1t\2\0\2\xAA"},
        {25, 2, 4, 5, "\1\0\1t\2"},
        {25, 3, 8, 9, "\1\0\1t\2\0\1\xAA\2"},
        {26, 1, 0, 7, "\1\0\1x\2\0\0"},
        {26, 1, 0, 13, "\1\0\7$1-$2+x\2\0\0"},
        {26, 1, 0, 7, "\1\0\1T\2\0\0"},
        {27, 1, 0, 10, "\1\0\4$1-t\2\0\0"},
        {27, 1, 0, 10, "\1\0\4u+$1\2\0\0"},
        {27, 1, 0, 13, "\1\0\7u+$1-$1\2\0\0"},
        {12, 2, 6, 10, "\1\0\3$10\2\0\1\xAA"},
        {12, 2, 5, 10, "\1\0\2$F\2\0\2\xAA\xBB"},
        {12, 2, 4, 9, "\1\0\1u\2\0\2\xAA\xBB"},
        {13, 4, 12, 16, "\1\0\1t\2\0\1\xAA\1\0\1t\2\0\1\xAA"},
    };
    struct window window;

    for (size_t i = 0; i < sizeof refused / sizeof refused[0]; i++) {
        int before = failures;
        LOADED(load_sheet(refused[i].sheet, refused[i].length, 0, &window),
               refusal(refused[i].reason, 0, refused[i].record, refused[i].place));
        check_nothing_loaded(&window);
        if (failures != before)
            printf("sheet %zu\n", i);
    }
    /* Past the last address, in a window that ends there. */
    LOADED(SHEET("\1\0\1u\2\0\2\xAA\xBB", UINT32_MAX - CELLS + 1, &window), refusal(12, 0, 2, 4));
}

/* The block's rows come before those of the sheet, with lines and places of the text; row 1 before both. */
static void sheet_behind_a_bad_block(void)
{
    static const uint8_t twice[] = "$$ M\nt $2 t $2\n$$", open[] = "$$ M\nt $2";
    const uint8_t sheet[] = {3};
    struct window window;

    memset(&window, FILL, sizeof window);
    LOADED(srec_load_sheet(twice, sizeof twice - 1, sheet, 1, 0, window.memory, CELLS, window.marks, CELLS),
           refusal(23, 0, 2, 5));
    check_nothing_loaded(&window);
    LOADED(srec_load_sheet(open, sizeof open - 1, sheet, 1, 0, window.memory, CELLS, window.marks, CELLS),
           refusal(22, 0, 2, 9));
    LOADED(srec_load_sheet(open, sizeof open - 1, sheet, 1, 0, window.memory, CELLS, window.marks, CELLS - 1),
           refusal(1, 0, 0, 0));
    LOADED(srec_load_behind(open, sizeof open - 1, UINT32_MAX, window.memory, CELLS, window.marks, CELLS),
           refusal(1, 0, 0, 0));
    check_nothing_loaded(&window);
}

/* A sheet is an image that can be laid over a base. */
static void sheet_over_a_base(void)
{
    struct window base, patch;

    LOADED(load_behind("$$ M\n$$\nS1050002AABB93\nS9031234B6", &base), titled(accepted(1, 2), NULL, 0, 0x1234));
    LOADED(SHEET("\1\0\4t+$1\2\0\2\x0A\x0B", 0, &patch), accepted(1, 2));
    LOADED(srec_merge(0, base.memory, CELLS, base.marks, CELLS, NULL, 0, 1, 0x1234, patch.memory, CELLS, patch.marks,
                      CELLS, NULL, 0, 0, 0),
           titled(accepted(0, 0), NULL, 0, 0x1234));
    check_cells(&base, 2, "\xAA\x0A\x0B", 3);
}

int main(void)
{
    behind_accepted();
    behind_refused();
    too_many_symbols();
    where_the_records_begin();
    sheet_accepted();
    sheet_refused();
    sheet_behind_a_bad_block();
    sheet_over_a_base();
    return failures != 0;
}
