/* span: which addresses a text or a patch sheet has, and which record gives a cell its byte.
 *
 * What is expected was worked out by hand: rows and places are those of docs/FORMAT.md, sections 4, 11 and 18. */
#include <stdio.h>

#include "answer.h"

static void check_span(struct srec_range got, uint32_t any, uint64_t lowest, uint64_t highest, int line)
{
    check(got.any == any, "any", line);
    check(got.lowest == lowest, "lowest", line);
    check(got.highest == highest, "highest", line);
}

static void check_origin(struct srec_origin got, size_t record, size_t place, uint32_t byte, int line)
{
    check(got.record == record, "record", line);
    check(got.place == place, "place", line);
    check(got.byte == byte, "byte", line);
}

static struct srec_range span(uint32_t format, const char *text)
{
    return srec_span(format, (const uint8_t *)text, strlen(text));
}

static struct srec_origin where(uint32_t format, const char *text, uint32_t address)
{
    return srec_where(format, (const uint8_t *)text, strlen(text), address);
}

#define SPAN(format, text, any, lowest, highest) check_span(span(format, text), any, lowest, highest, __LINE__)
#define WHERE(format, text, address, record, place, byte) \
    check_origin(where(format, text, address), record, place, byte, __LINE__)

/* ---- spans ---- */

/* Nothing at all; records without data; addresses of S0 and S9, which are no cells. */
static void nothing(void)
{
    SPAN(SREC_RECORDS, "", 0, 0, 0);
    SPAN(SREC_RECORDS, "\r\n\n", 0, 0, 0);
    SPAN(SREC_RECORDS, "S103FF00FD\nS9030000FC", 0, 0, 0);
    SPAN(SREC_RECORDS, "S0041234AA0B\nS5030000FC\nS9031234B6", 0, 0, 0);
    SPAN(SREC_TAPE_REPEAT, "", 0, 0, 0);
    SPAN(SREC_TAPE_SUM, ";0000000000", 0, 0, 0);
}

/* In any order, two of them over each other (row 13), with or without a terminator (row 14). */
static void all_records(void)
{
    SPAN(SREC_RECORDS, "S1050002AABB93\nS9030000FC", 1, 2, 3);
    SPAN(UINT32_MAX, "S1050002AABB93\nS9030000FC", 1, 2, 3);
    SPAN(SREC_RECORDS, "S1050002AABB93\nS1050003CCDD4E\nS1040000AA51", 1, 0, 4);
    SPAN(SREC_RECORDS, "S103FF00FD\nS1040000AA51\nS9030000FC", 1, 0, 0);
    SPAN(SREC_RECORDS, "S1040000AA51\nS1040000AA51", 1, 0, 0);
    SPAN(SREC_RECORDS, "S00600004844521B\r\nS2050100005A9F\r\n", 1, 0x10000, 0x10000);
}

static void top_of_the_addresses(void)
{
    SPAN(SREC_RECORDS, "S306FFFFFFFF5AA3", 1, UINT32_MAX, UINT32_MAX);
    SPAN(SREC_RECORDS, "S306FFFFFFFF5AA3\nS1040000AA51\nS70500000000FA", 1, 0, UINT32_MAX);
    SPAN(SREC_RECORDS, "S305FFFFFFFFFE\nS70500000000FA", 0, 0, 0);
    SPAN(SREC_RECORDS, "S104FFFF11EC\nS9030000FC", 1, 0xFFFF, 0xFFFF);
    SPAN(SREC_TAPE_REPEAT, ";02FFFEAABB0364\r\n;0000010001", 1, 0xFFFE, 0xFFFF);
}

/* The records before it count, it and those behind it do not: rows 7, 11, 2, 10, 8, 5, 4 and, of a tape, 7. */
static void up_to_a_refused_record(void)
{
    SPAN(SREC_RECORDS, "S1040000AA51\nS1040001AA51\nS1040002AA4F", 1, 0, 0);
    SPAN(SREC_RECORDS, "S1040000AA51\nS105FFFF1122C9\nS1040002AA4F", 1, 0, 0);
    SPAN(SREC_RECORDS, "S1040000AA51\nS9030000FC\nS1040002AA4F", 1, 0, 0);
    SPAN(SREC_RECORDS, "S1040000AA51\nS5030002FA\nS1040002AA4F", 1, 0, 0);
    SPAN(SREC_RECORDS, "S1040000AA51\nS0030000FC\nS1040002AA4F", 1, 0, 0);
    SPAN(SREC_RECORDS, "S1040000AA51\nS1040001AG50\nS1040002AA4F", 1, 0, 0);
    SPAN(SREC_RECORDS, "x\nS1040000AA51", 0, 0, 0);
    SPAN(SREC_TAPE_SUM, ";01FFF0AA029A\n;01FFF1AA029A\n;01FFF2AA029C", 1, 0xFFF0, 0xFFF0);
}

/* A window that covers the span takes the text; the last text is refused there by 13, and never by 12. */
static void span_is_enough(void)
{
    static const uint8_t text[] = "S1050002AABB93\nS1040009AA48\nS9030000FC";
    static const uint8_t twice[] = "S1050002AABB93\nS1050003CCDD4E\nS9030000FC";
    uint8_t memory[8], marks[8];

    check_span(srec_span(SREC_RECORDS, text, sizeof text - 1), 1, 2, 9, __LINE__);
    CHECK(srec_load(text, sizeof text - 1, 2, memory, 8, marks, 8) == 0);
    CHECK(srec_load(text, sizeof text - 1, 2, memory, 7, marks, 7) == 12);
    CHECK(srec_load(text, sizeof text - 1, 3, memory, 7, marks, 7) == 12);
    check_span(srec_span(SREC_RECORDS, twice, sizeof twice - 1), 1, 2, 4, __LINE__);
    CHECK(srec_load(twice, sizeof twice - 1, 2, memory, 3, marks, 3) == 13);
}

/* ---- origins ---- */

/* The first of two wins; empty lines are no records, but their characters count; S0 and records without data do. */
static void first_record(void)
{
    const char two[] = "S1050002AABB93\nS1050003CCDD4E\nS9030000FC";
    const char third[] = "\n\nS00600004844521B\nS103FF00FD\n\nS1050002AA004E\n";

    WHERE(SREC_RECORDS, two, 1, 0, 0, 0);
    WHERE(SREC_RECORDS, two, 2, 1, 0, 0xAA);
    WHERE(SREC_RECORDS, two, 3, 1, 0, 0xBB);
    WHERE(SREC_RECORDS, two, 4, 2, 15, 0xDD);
    WHERE(SREC_RECORDS, two, 5, 0, 0, 0);
    WHERE(SREC_RECORDS, third, 2, 3, 31, 0xAA);
    WHERE(SREC_RECORDS, third, 3, 3, 31, 0);
    WHERE(SREC_RECORDS, third, 0xFF00, 0, 0, 0);
    WHERE(SREC_RECORDS, "", 0, 0, 0, 0);
    WHERE(SREC_RECORDS, "S0041234AA0B\nS9031234B6", 0x1234, 0, 0, 0);
}

/* All 32 bits of the address count, also on a tape, which has 16. */
static void first_record_at_the_top(void)
{
    WHERE(SREC_RECORDS, "S1040000AA51\nS306FFFFFFFF5AA3", UINT32_MAX, 2, 13, 0x5A);
    WHERE(SREC_RECORDS, "S1040000AA51\nS306FFFFFFFF5AA3", 0, 1, 0, 0xAA);
    WHERE(SREC_RECORDS, "S305FFFFFFFFFE", UINT32_MAX, 0, 0, 0);
    WHERE(SREC_RECORDS, "S104FFFF11EC", 0xFFFF, 1, 0, 0x11);
    WHERE(SREC_RECORDS, "S104FFFF11EC", 0x1FFFF, 0, 0, 0);
    WHERE(SREC_TAPE_REPEAT, ";02FFFEAABB0364\r\n;0000010001", 0xFFFF, 1, 0, 0xBB);
    WHERE(SREC_TAPE_SUM, ";02FFFEAABB0364\r\n;0000010001", 0x1FFFF, 0, 0, 0);
    WHERE(UINT32_MAX, "S104FFFF11EC", 0xFFFF, 1, 0, 0x11);
    WHERE(SREC_TAPE_SUM, ";01FFF0AA029A\r\n;02FFFEAABB0364\r\n;0000020002", 0xFFFE, 2, 15, 0xAA);
}

static void none_behind_a_refused_record(void)
{
    const char text[] = "S1040000AA51\nS1040001AA51\nS1040002AA4F";

    WHERE(SREC_RECORDS, text, 0, 1, 0, 0xAA);
    WHERE(SREC_RECORDS, text, 1, 0, 0, 0);
    WHERE(SREC_RECORDS, text, 2, 0, 0, 0);
    WHERE(SREC_RECORDS, "S9030000FC\nS1040000AA51", 0, 0, 0, 0);
    WHERE(SREC_RECORDS, "S105FFFF1122C9", 0xFFFF, 0, 0, 0);
}

/* ---- patch sheets ---- */

static struct srec_range span_sheet(const char *text, const char *sheet, size_t length)
{
    return srec_span_sheet((const uint8_t *)text, strlen(text), (const uint8_t *)sheet, length);
}

#define SHEET(text, sheet, any, lowest, highest) \
    check_span(span_sheet(text, sheet, sizeof sheet - 1), any, lowest, highest, __LINE__)

/* The rows that stop it are those of the block and 25, 26 and 27; bytes past the last address do not (row 12). */
static void sheets(void)
{
    const char block[] = "$$ M\nt $2 u $FFFFFFFF\n$$\n";

    SHEET(block, "", 0, 0, 0);
    SHEET(block, "\1\0\1t\2\0\2\x0A\x0B", 1, 2, 3);
    SHEET(block, "\1\0\1t\2\0\0", 0, 0, 0);
    SHEET(block, "\1\0\1t\2\0\1\xAA\1\0\1t\2\0\2\xAA\xBB\1\0\1u\2\0\0", 1, 2, 3);
    SHEET(block, "\1\0\1u\2\0\1\xAA\1\0\2$0\2\0\1\xAA", 1, 0, UINT32_MAX);
    SHEET(block, "\1\0\1u\2\0\2\xAA\xBB", 1, UINT32_MAX, (uint64_t)1 << 32);
    SHEET(block, "\1\0\1t\2\0\1\xAA\1\0\1x\2\0\1\xAA\1\0\2$9\2\0\1\xAA", 1, 2, 2);
    SHEET(block, "\1\0\1t\2\0\1\xAA\1\0\4$1-t\2\0\1\xAA\1\0\2$9\2\0\1\xAA", 1, 2, 2);
    SHEET(block, "\1\0\1t\2\0\1\xAA\1\0\2$9\2\0\3\xAA", 1, 2, 2);
    SHEET(block, "\1\0\1t\2\0\1\xAA\1\0\2$9", 1, 2, 2);
    SHEET("$$ M\nt $2", "\1\0\1t\2\0\1\xAA", 0, 0, 0);
    SHEET("$$ M\nt $2\nt $2\n$$", "\1\0\1t\2\0\1\xAA", 0, 0, 0);
    SHEET("", "\1\0\2$1\2\0\1\xAA", 0, 0, 0);
}

int main(void)
{
    nothing();
    all_records();
    top_of_the_addresses();
    up_to_a_refused_record();
    span_is_enough();
    first_record();
    first_record_at_the_top();
    none_behind_a_refused_record();
    sheets();
    return failures != 0;
}
