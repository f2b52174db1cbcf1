/* image.h: windows, and texts loaded into them and written from them. */
#ifndef IMAGE_H
#define IMAGE_H

#include <stddef.h>
#include <stdint.h>

#include "input.h"
#include "options.h"
#include "output.h"
#include "srec.h"
#include "status.h"

struct window {
    uint32_t base;
    size_t length;
    uint8_t *memory;
    uint8_t *marks;
};

/* A window with what was loaded into it. */
struct image {
    enum kind kind; /* of the text */
    struct window window;
    struct srec_loaded answer; /* header and entry count; reason, record and place are of a refused load */
    struct product spare;      /* room that is no longer needed, for the text that will be written */
};

struct srec_range span_of(const struct input *input);
struct srec_range both_spans(struct srec_range one, struct srec_range other);

/* Does a span take a window that has to be asked for? */
int is_wide(struct srec_range span);

/* Makes a window: the one that --window gives, else one that holds the span, from a multiple of `unit` to one. The name is
 * for messages, NULL for several files. Its buffers are the caller's to free with close_window, also after trouble. */
enum status open_window(const struct options *options, struct srec_range span, size_t unit, const char *name,
                        struct window *window);

/* Makes a window of a base and a length. */
enum status make_window(uint32_t base, size_t length, const char *name, struct window *window);

void close_window(struct window *window);
void close_image(struct image *image);

/* Loads an input into the window of an image, and tells a refusal. */
enum status load_image(const struct input *input, struct image *image);

/* Reads a file and loads it into a window of its own. */
enum status load_file(const char *path, const struct options *options, size_t unit, struct image *image);

/* Makes the canonical text of an image, and tells a refusal. The bytes are the caller's to free. */
enum status make_text(uint32_t format, struct image *image, const char *name, struct product *product);

/* The same, written to a file, or to standard output if the path is NULL. */
enum status put_text(uint32_t format, struct image *image, const char *name, const char *path);

/* Gives an image the entry of --entry, if there is one. */
void set_entry(const struct options *options, struct image *image);

#endif
