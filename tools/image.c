#include "image.h"

#include <inttypes.h>
#include <stdlib.h>
#include <string.h>

#include "guess.h"
#include "pages.h"
#include "refusal.h"

/* How many cells a window has at most that was not asked for: the load writes a mark for each, so a text of two records
 * could else take all memory that there is. */
#define MOST_CELLS ((uint64_t)1 << 30)

struct srec_range span_of(const struct input *input)
{
    struct records records = records_of(input);

    return srec_span(records.format, records.text, records.length);
}

struct srec_range both_spans(struct srec_range one, struct srec_range other)
{
    if (!one.any)
        return other;
    if (other.any) {
        one.lowest = other.lowest < one.lowest ? other.lowest : one.lowest;
        one.highest = other.highest > one.highest ? other.highest : one.highest;
    }
    return one;
}

enum status make_window(uint32_t base, size_t length, const char *name, struct window *window)
{
    size_t size = length > 0 ? length : 1;

    window->base = base;
    window->length = length;
    /* Memory that is never written takes no room in most systems, so memory is not cleared by hand. */
    window->memory = calloc(size, 1);
    window->marks = malloc(size);
    if (!window->memory || !window->marks) {
        trouble(name, "there is no memory for a window of %zu cells", length);
        return TROUBLE;
    }
    use_large_pages(window->memory, size);
    use_large_pages(window->marks, size);
    return DONE;
}

int is_wide(struct srec_range span)
{
    return span.any && span.highest - span.lowest >= MOST_CELLS;
}

static void tell_too_wide(uint64_t base, uint64_t length, const char *name)
{
    trouble(name,
            "the cells lie from %08" PRIX64 " to %08" PRIX64 " and take a window of %" PRIu64 "; one of more than %" PRIu64
            " must be asked for, with --window %" PRIX64 ":%" PRIX64,
            base, base + length - 1, length, MOST_CELLS, base, length);
}

enum status open_window(const struct options *options, struct srec_range span, size_t unit, const char *name,
                        struct window *window)
{
    uint64_t base = 0;
    uint64_t length = 0;

    memset(window, 0, sizeof *window);
    if (options->given & OPTION_WINDOW) {
        base = options->base;
        length = options->length;
    } else if (span.any) {
        uint64_t highest = span.highest < UINT32_MAX ? span.highest : UINT32_MAX;

        base = span.lowest - span.lowest % unit;
        length = highest - base + 1;
        length += (unit - length % unit) % unit;
        if (length > MOST_CELLS) {
            tell_too_wide(base, length, name);
            return TROUBLE;
        }
    }
    return make_window((uint32_t)base, (size_t)length, name, window);
}

void close_window(struct window *window)
{
    free(window->memory);
    free(window->marks);
    memset(window, 0, sizeof *window);
}

void close_image(struct image *image)
{
    close_window(&image->window);
    free(image->spare.bytes);
    memset(image, 0, sizeof *image);
}

/* Returns the row that refuses the input, and tells nothing. */
static uint32_t load_quietly(const struct input *input, struct image *image)
{
    struct window *window = &image->window;

    image->kind = input->kind;
    if (input->kind == KIND_SYMBOLS)
        image->answer = srec_load_behind(input->bytes, input->length, window->base, window->memory, window->length,
                                         window->marks, window->length);
    else
        image->answer = srec_load_as(format_of(input->kind), input->bytes, input->length, window->base, window->memory,
                                     window->length, window->marks, window->length);
    return image->answer.reason;
}

static enum status told(const struct input *input, const struct image *image)
{
    if (image->answer.reason == 0)
        return DONE;
    tell_refusal(input, &image->window, &image->answer);
    return REFUSED;
}

enum status load_image(const struct input *input, struct image *image)
{
    load_quietly(input, image);
    return told(input, image);
}

/* Chooses a window and loads. What is loaded does not depend on the window, unless data lies outside of it: so a window for
 * the cells that the text seems to have saves the pass over it that finds those it has. */
static enum status load_alone(const struct input *input, const struct options *options, size_t unit, struct image *image)
{
    struct srec_range guess = guess_span(input);
    enum status status;

    /* Well below the limit, so that the guess never reaches it. */
    if (!(options->given & OPTION_WINDOW) && guess.any && guess.highest - guess.lowest < MOST_CELLS / 2) {
        status = open_window(options, guess, unit, input->name, &image->window);
        if (status != DONE)
            return status;
        if (load_quietly(input, image) != ROW_OUTSIDE)
            return told(input, image);
        close_window(&image->window);
    }
    status = open_window(options, span_of(input), unit, input->name, &image->window);
    return status == DONE ? load_image(input, image) : status;
}

enum status load_file(const char *path, const struct options *options, size_t unit, struct image *image)
{
    struct input input;
    enum status status;

    memset(image, 0, sizeof *image);
    status = open_input(path, options, &input);
    if (status == DONE)
        status = load_alone(&input, options, unit, image);
    image->spare.bytes = input.bytes;
    image->spare.length = input.length;
    return status;
}

static struct srec_written write_to(const struct product *product, uint32_t format, const struct image *image)
{
    const struct window *window = &image->window;
    const struct srec_loaded *answer = &image->answer;

    return srec_write_as(format, window->base, window->memory, window->length, window->marks, window->length,
                         answer->header, answer->header_len, answer->has_entry, answer->entry, product->bytes,
                         product->length);
}

/* Makes the room of a product larger. Its bytes are not needed, but realloc can keep their pages where they are. */
static enum status enlarge(struct product *product, size_t length, const char *name)
{
    uint8_t *bytes = realloc(product->bytes, length);

    if (!bytes)
        return trouble(name, "there is no memory for a text of %zu characters", length);
    use_large_pages(bytes, length);
    product->bytes = bytes;
    product->length = length;
    return DONE;
}

enum status make_text(uint32_t format, struct image *image, const char *name, struct product *product)
{
    struct srec_written written;

    /* The text that was read is often as long as the one that is written, and its pages are there already. */
    *product = image->spare;
    memset(&image->spare, 0, sizeof image->spare);
    written = write_to(product, format, image);
    if (written.reason == ROW_NO_ROOM) {
        if (enlarge(product, written.place, name) != DONE)
            return TROUBLE;
        written = write_to(product, format, image);
    }
    if (written.reason != 0) {
        tell_refused_write(name, &image->window, &written);
        return REFUSED;
    }
    product->length = written.length;
    return DONE;
}

enum status put_text(uint32_t format, struct image *image, const char *name, const char *path)
{
    struct product product;
    enum status status = make_text(format, image, name, &product);

    if (status == DONE)
        status = put_product(path, &product);
    free(product.bytes);
    return status;
}

void set_entry(const struct options *options, struct image *image)
{
    if (options->given & OPTION_ENTRY) {
        image->answer.has_entry = 1;
        image->answer.entry = options->entry;
    }
}
