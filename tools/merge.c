/* merge: patches laid over a base, in order. */
#include <stdlib.h>
#include <string.h>

#include "commands.h"
#include "image.h"
#include "overlay.h"

static enum status open_all(const struct options *options, struct input *inputs, struct srec_range *span)
{
    enum status status = DONE;

    for (int i = 0; i < options->operand_count; i++) {
        enum status opened = open_input(options->operands[i], options, &inputs[i]);

        if (opened == DONE)
            *span = both_spans(*span, span_of(&inputs[i]));
        status = worse(status, opened);
    }
    return status;
}

/* Loads the first input into one image and lays the others over it. A text is closed once it is loaded. */
static enum status lay_all(const struct options *options, struct input *inputs, struct image *base, struct image *patch)
{
    enum status status = load_image(&inputs[0], base);

    close_input(&inputs[0]);
    for (int i = 1; status == DONE && i < options->operand_count; i++) {
        status = load_image(&inputs[i], patch);
        if (status == DONE)
            status = lay_over(base, patch, inputs[i].name);
        close_input(&inputs[i]);
    }
    return status;
}

enum status run_merge(const struct options *options)
{
    struct input *inputs = calloc((size_t)options->operand_count, sizeof *inputs);
    struct srec_range span = {0, 0, 0};
    struct image images[2];
    enum status status;

    if (!inputs)
        return trouble(NULL, "there is no memory for %d files", options->operand_count);
    memset(images, 0, sizeof images);
    status = open_all(options, inputs, &span);
    for (int i = 0; status == DONE && i < 2; i++)
        status = open_window(options, span, 1, NULL, &images[i].window);
    if (status == DONE)
        status = lay_all(options, inputs, &images[0], &images[1]);
    for (int i = 0; i < options->operand_count; i++)
        close_input(&inputs[i]);
    free(inputs);
    close_image(&images[1]);
    if (status == DONE) {
        set_entry(options, &images[0]);
        status = put_text(SREC_RECORDS, &images[0], "the merged image", options->out);
    }
    close_image(&images[0]);
    return status;
}
