/* canonical: reads S-records and writes their canonical text, so that diff compares images and not line layouts.
 *
 *   cc -std=c99 -I include examples/canonical.c target/libsrec.a -o canonical
 *
 * Four calls do the work: srec_span tells which window the text needs, srec_load_as loads it there, srec_room tells how
 * long the canonical text will be, and srec_write_as writes it. Header and entry go from the load to the write, so nothing
 * is lost but the layout.
 */
#include <errno.h>
#include <stdint.h>
#include <stdio.h>
#include <stdlib.h>
#include <string.h>

#include "srec.h"

enum { ACCEPTED = 0, REFUSED = 1, TROUBLE = 2 };

static const char usage[] =
    "usage: canonical [FILE]\n"
    "Writes the canonical text of the S-records of FILE, or of standard input, to\n"
    "standard output.\n"
    "Exit status: 0 written, 1 FILE is refused, 2 wrong usage or an input/output error.\n";

struct text {
    uint8_t *bytes;
    size_t length;
};

/* memory[i] is the cell at address base + i, and marks[i] says if the text addresses it. */
struct window {
    uint32_t base;
    size_t length;
    uint8_t *memory;
    uint8_t *marks;
};

static int trouble(const char *name)
{
    fprintf(stderr, "canonical: %s: %s\n", name, strerror(errno));
    return TROUBLE;
}

/* Reads a stream to its end. Returns 0, or -1 with errno set; text is the caller's to free in either case. */
static int read_all(FILE *file, struct text *text)
{
    size_t room = 0;

    for (;;) {
        if (text->length == room) {
            size_t larger = room ? 2 * room : 65536;
            uint8_t *bytes = (uint8_t *)realloc(text->bytes, larger);
            if (!bytes)
                return -1;
            text->bytes = bytes;
            room = larger;
        }
        size_t got = fread(text->bytes + text->length, 1, room - text->length, file);
        text->length += got;
        if (got == 0)
            return ferror(file) ? -1 : 0;
    }
}

/* The smallest window that holds every cell of the text, so that no data lies outside (row 12). Returns 0, or -1. */
static int make_window(const struct text *text, struct window *window)
{
    struct srec_range span = srec_span(SREC_RECORDS, text->bytes, text->length);

    window->base = (uint32_t)span.lowest;
    window->length = span.any ? (size_t)(span.highest - span.lowest + 1) : 0;
    /* One byte more: for 0 bytes NULL would be no sign of an error. */
    window->memory = (uint8_t *)calloc(window->length + 1, 1);
    window->marks = (uint8_t *)calloc(window->length + 1, 1);
    return window->memory && window->marks ? 0 : -1;
}

/* Tells a refusal: which record, where it stands, why, and the checksum that it should have. */
static int refuse(const char *name, const struct srec_loaded *loaded)
{
    fprintf(stderr, "canonical: %s: record %lu, character %lu: row %u: %s", name, (unsigned long)loaded->record,
            (unsigned long)loaded->place, (unsigned)loaded->reason, srec_reason(loaded->reason));
    if (loaded->reason == 7)
        fprintf(stderr, ", %02X would be right", (unsigned)loaded->want);
    fputc('\n', stderr);
    return REFUSED;
}

/* Writes what was loaded to standard output. A load that was accepted can always be written, given the room. */
static int write_text(const struct window *window, const struct srec_loaded *loaded)
{
    struct srec_written room = srec_room(SREC_RECORDS, window->base, window->memory, window->length, window->marks,
                                         window->length, loaded->header, loaded->header_len, loaded->has_entry,
                                         loaded->entry);
    uint8_t *out = (uint8_t *)malloc(room.length);

    if (!out)
        return trouble("output");
    srec_write_as(SREC_RECORDS, window->base, window->memory, window->length, window->marks, window->length,
                  loaded->header, loaded->header_len, loaded->has_entry, loaded->entry, out, room.length);
    int status = ACCEPTED;
    if (fwrite(out, 1, room.length, stdout) != room.length || fflush(stdout) != 0)
        status = trouble("standard output");
    free(out);
    return status;
}

static int convert(const char *name, FILE *file)
{
    struct text text = {NULL, 0};
    struct window window = {0, 0, NULL, NULL};
    int status;

    if (read_all(file, &text) != 0) {
        status = trouble(name);
    } else if (make_window(&text, &window) != 0) {
        status = trouble("window");
    } else {
        struct srec_loaded loaded = srec_load_as(SREC_RECORDS, text.bytes, text.length, window.base, window.memory,
                                                 window.length, window.marks, window.length);
        status = loaded.reason == 0 ? write_text(&window, &loaded) : refuse(name, &loaded);
    }
    free(text.bytes);
    free(window.memory);
    free(window.marks);
    return status;
}

int main(int argc, char **argv)
{
    if (argc > 2) {
        fputs(usage, stderr);
        return TROUBLE;
    }
    if (argc < 2)
        return convert("standard input", stdin);
    FILE *file = fopen(argv[1], "rb");
    if (!file)
        return trouble(argv[1]);
    int status = convert(argv[1], file);
    fclose(file);
    return status;
}
