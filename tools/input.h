/* input.h: files and standard input, read whole, and which format they have. */
#ifndef INPUT_H
#define INPUT_H

#include <stddef.h>
#include <stdint.h>

#include "options.h"
#include "srec.h"
#include "status.h"

struct input {
    const char *name; /* for messages */
    uint8_t *bytes;
    size_t length;
    enum kind kind;
    size_t start; /* of the records: behind a block of symbols, else 0 */
};

/* The part of an input that the functions of srec.h take for a text of a format. */
struct records {
    uint32_t format;
    const uint8_t *text;
    size_t length;
};

/* Reads a file, or standard input for `-`, and finds its format unless the options name one. The bytes are the caller's to
 * free with close_input, also after trouble. */
enum status open_input(const char *path, const struct options *options, struct input *input);

void close_input(struct input *input);

struct records records_of(const struct input *input);

/* The name of a path in messages. */
const char *input_name(const char *path);

/* The number of srec.h for the records of a format. */
uint32_t format_of(enum kind kind);

/* The words for a format. */
const char *kind_name(enum kind kind);

#endif
