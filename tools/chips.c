/* deal and collect: an image over two or four chips, and back. */
#include <inttypes.h>
#include <stdio.h>
#include <stdlib.h>
#include <string.h>

#include "commands.h"
#include "image.h"
#include "refusal.h"

enum { MOST_CHIPS = 4 };

/* The chips that there are not have windows of length 0. */
struct chips {
    size_t count;
    struct image images[MOST_CHIPS];
    char *paths[MOST_CHIPS];
};

/* Names the files of the chips: PREFIX.0 and so on. */
static enum status name_chips(struct chips *chips, const char *prefix, size_t count)
{
    size_t length = strlen(prefix);

    memset(chips, 0, sizeof *chips);
    chips->count = count;
    for (size_t i = 0; i < count; i++) {
        chips->paths[i] = malloc(length + sizeof ".0");
        if (!chips->paths[i])
            return trouble(prefix, "there is no memory for names");
        memcpy(chips->paths[i], prefix, length);
        chips->paths[i][length] = '.';
        chips->paths[i][length + 1] = (char)('0' + i);
        chips->paths[i][length + 2] = '\0';
    }
    return DONE;
}

static void close_chips(struct chips *chips)
{
    for (size_t i = 0; i < MOST_CHIPS; i++) {
        close_image(&chips->images[i]);
        free(chips->paths[i]);
    }
}

/* What is written has an empty header and the entry 0: those of the whole are no addresses of a chip. */
static void plain_answer(struct image *image)
{
    memset(&image->answer, 0, sizeof image->answer);
    image->answer.has_entry = 1;
}

static enum status refused(const char *name, uint32_t row)
{
    tell_row(name, row);
    return REFUSED;
}

static enum status deal(const struct window *whole, struct chips *chips, const char *name)
{
    struct window *w[MOST_CHIPS];
    enum status status = DONE;
    uint32_t row;

    for (size_t i = 0; i < MOST_CHIPS; i++) {
        size_t length = i < chips->count ? whole->length / chips->count : 0;

        w[i] = &chips->images[i].window;
        status = worse(status, make_window((uint32_t)(whole->base / chips->count), length, name, w[i]));
    }
    if (status != DONE)
        return status;
    row = srec_deal(chips->count, whole->base, whole->memory, whole->length, whole->marks, whole->length, w[0]->memory,
                    w[0]->length, w[0]->marks, w[0]->length, w[1]->memory, w[1]->length, w[1]->marks, w[1]->length,
                    w[2]->memory, w[2]->length, w[2]->marks, w[2]->length, w[3]->memory, w[3]->length, w[3]->marks,
                    w[3]->length)
              .reason;
    return row == 0 ? DONE : refused(name, row);
}

/* Makes all texts before the first file is touched. */
static enum status put_chips(struct chips *chips)
{
    struct product products[MOST_CHIPS];
    const char *paths[MOST_CHIPS];
    enum status status = DONE;

    memset(products, 0, sizeof products);
    for (size_t i = 0; status == DONE && i < chips->count; i++) {
        paths[i] = chips->paths[i];
        plain_answer(&chips->images[i]);
        status = make_text(SREC_RECORDS, &chips->images[i], paths[i], &products[i]);
        close_image(&chips->images[i]);
    }
    if (status == DONE)
        status = put_products(paths, products, chips->count);
    for (size_t i = 0; i < MOST_CHIPS; i++)
        free(products[i].bytes);
    return status;
}

static enum status need_chips(const struct options *options)
{
    return options->given & OPTION_CHIPS ? DONE : trouble(NULL, "the number of chips is needed: -k 2 or -k 4");
}

enum status run_deal(const struct options *options)
{
    struct image whole;
    struct chips chips;
    enum status status = need_chips(options);

    if (status != DONE)
        return status;
    status = name_chips(&chips, options->operands[1], options->chips);
    memset(&whole, 0, sizeof whole);
    if (status == DONE)
        status = load_file(options->operands[0], options, options->chips, &whole);
    if (status == DONE)
        status = deal(&whole.window, &chips, input_name(options->operands[0]));
    close_image(&whole);
    if (status == DONE)
        status = put_chips(&chips);
    close_chips(&chips);
    return status;
}

static enum status open_chips(const struct options *options, const struct chips *chips, struct input *inputs,
                              struct srec_range *span)
{
    enum status status = DONE;

    for (size_t i = 0; i < chips->count; i++) {
        enum status opened = open_input(chips->paths[i], options, &inputs[i]);

        if (opened == DONE)
            *span = both_spans(*span, span_of(&inputs[i]));
        status = worse(status, opened);
    }
    if (status == DONE && span->any && span->highest >= ((uint64_t)UINT32_MAX + 1) / chips->count) {
        fprintf(stderr, "the chips: cell %08" PRIX64 " of one of %zu chips would lie past FFFFFFFF (refusal 1)\n",
                span->highest, chips->count);
        return REFUSED;
    }
    return status;
}

/* Loads every chip, also if an earlier one is refused, so that all refusals are told. */
static enum status load_each(const struct input *inputs, struct chips *chips)
{
    enum status status = DONE;

    for (size_t i = 0; i < chips->count; i++)
        status = worse(status, load_image(&inputs[i], &chips->images[i]));
    return status;
}

/* Reads all chips before the first is loaded, since all have the same window. */
static enum status load_chips(const struct options *options, struct chips *chips)
{
    const struct srec_range none = {0, 0, 0};
    struct srec_range span = none;
    struct input inputs[MOST_CHIPS];
    enum status status;

    memset(inputs, 0, sizeof inputs);
    status = open_chips(options, chips, inputs, &span);
    for (size_t i = 0; status == DONE && i < MOST_CHIPS; i++)
        status = open_window(options, i < chips->count ? span : none, 1, NULL, &chips->images[i].window);
    if (status == DONE)
        status = load_each(inputs, chips);
    for (size_t i = 0; i < chips->count; i++)
        close_input(&inputs[i]);
    return status;
}

static enum status collect(const struct chips *chips, struct window *whole)
{
    const struct window *w[MOST_CHIPS];
    uint32_t row;

    for (size_t i = 0; i < MOST_CHIPS; i++)
        w[i] = &chips->images[i].window;
    if (make_window((uint32_t)(w[0]->base * chips->count), w[0]->length * chips->count, NULL, whole) != DONE)
        return TROUBLE;
    row = srec_collect(chips->count, whole->base, whole->memory, whole->length, whole->marks, whole->length,
                       w[0]->memory, w[0]->length, w[0]->marks, w[0]->length, w[1]->memory, w[1]->length, w[1]->marks,
                       w[1]->length, w[2]->memory, w[2]->length, w[2]->marks, w[2]->length, w[3]->memory, w[3]->length,
                       w[3]->marks, w[3]->length)
              .reason;
    return row == 0 ? DONE : refused("the chips", row);
}

enum status run_collect(const struct options *options)
{
    struct image whole;
    struct chips chips;
    enum status status = need_chips(options);

    if (status != DONE)
        return status;
    status = name_chips(&chips, options->operands[0], options->chips);
    memset(&whole, 0, sizeof whole);
    if (status == DONE)
        status = load_chips(options, &chips);
    if (status == DONE)
        status = collect(&chips, &whole.window);
    if (status == DONE) {
        const char *out = strcmp(options->operands[1], "-") == 0 ? NULL : options->operands[1];

        plain_answer(&whole);
        status = put_text(SREC_RECORDS, &whole, "the collected image", out);
    }
    close_image(&whole);
    close_chips(&chips);
    return status;
}
