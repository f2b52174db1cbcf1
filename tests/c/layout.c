/* layout: sizes and offsets of the structures that are returned by value, as the library has them on x86-64. */
#include <stddef.h>

#include "check.h"
#include "srec.h"

/* 4, 4, four times 8, 4, 4, 8 and 252 bytes; 4 more bring it to a multiple of 8. */
static void loaded(void)
{
    CHECK(offsetof(struct srec_loaded, reason) == 0);
    CHECK(offsetof(struct srec_loaded, want) == 4);
    CHECK(offsetof(struct srec_loaded, record) == 8);
    CHECK(offsetof(struct srec_loaded, place) == 16);
    CHECK(offsetof(struct srec_loaded, records) == 24);
    CHECK(offsetof(struct srec_loaded, cells) == 32);
    CHECK(offsetof(struct srec_loaded, has_entry) == 40);
    CHECK(offsetof(struct srec_loaded, entry) == 44);
    CHECK(offsetof(struct srec_loaded, header_len) == 48);
    CHECK(offsetof(struct srec_loaded, header) == 56);
    CHECK(sizeof(struct srec_loaded) == 312);
}

/* Each has 4 bytes before or behind two of 8, and takes three times 8. */
static void others(void)
{
    CHECK(offsetof(struct srec_written, reason) == 0);
    CHECK(offsetof(struct srec_written, place) == 8);
    CHECK(offsetof(struct srec_written, length) == 16);
    CHECK(sizeof(struct srec_written) == 24);
    CHECK(offsetof(struct srec_range, any) == 0);
    CHECK(offsetof(struct srec_range, lowest) == 8);
    CHECK(offsetof(struct srec_range, highest) == 16);
    CHECK(sizeof(struct srec_range) == 24);
    CHECK(offsetof(struct srec_origin, record) == 0);
    CHECK(offsetof(struct srec_origin, place) == 8);
    CHECK(offsetof(struct srec_origin, byte) == 16);
    CHECK(sizeof(struct srec_origin) == 24);
}

/* 4, 1, 1 and 2 bytes of padding, 4, 4, ten times 8, 252 and 516: 864, a multiple of 8. */
static void parts(void)
{
    CHECK(offsetof(struct srec_parts, reason) == 0);
    CHECK(offsetof(struct srec_parts, want) == 4);
    CHECK(offsetof(struct srec_parts, ended) == 5);
    CHECK(offsetof(struct srec_parts, has_entry) == 8);
    CHECK(offsetof(struct srec_parts, entry) == 12);
    CHECK(offsetof(struct srec_parts, record) == 16);
    CHECK(offsetof(struct srec_parts, place) == 24);
    CHECK(offsetof(struct srec_parts, size) == 32);
    CHECK(offsetof(struct srec_parts, total) == 40);
    CHECK(offsetof(struct srec_parts, begins) == 48);
    CHECK(offsetof(struct srec_parts, number) == 56);
    CHECK(offsetof(struct srec_parts, records) == 64);
    CHECK(offsetof(struct srec_parts, cells) == 72);
    CHECK(offsetof(struct srec_parts, head) == 80);
    CHECK(offsetof(struct srec_parts, held) == 88);
    CHECK(offsetof(struct srec_parts, header) == 96);
    CHECK(offsetof(struct srec_parts, line) == 348);
    CHECK(sizeof(struct srec_parts) == 864);
}

/* 312 and 864 bytes. */
static void ended(void)
{
    CHECK(offsetof(struct srec_ended, loaded) == 0);
    CHECK(offsetof(struct srec_ended, parts) == 312);
    CHECK(sizeof(struct srec_ended) == 1176);
}

int main(void)
{
    loaded();
    others();
    parts();
    ended();
    return failures != 0;
}
