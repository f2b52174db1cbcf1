/* canon and convert: one file, written again. */
#include "commands.h"
#include "image.h"

enum status run_canon(const struct options *options)
{
    struct image image;
    enum status status = load_file(options->operands[0], options, 1, &image);

    if (status == DONE)
        status = put_text(format_of(image.kind), &image, input_name(options->operands[0]), options->out);
    close_image(&image);
    return status;
}

/* A tape holds neither header nor entry: both are dropped, and that is told. */
static void drop(const char *name, struct image *image)
{
    struct srec_loaded *answer = &image->answer;

    if (answer->header_len > 0)
        warn(name, "a tape holds no header: %zu bytes are dropped", answer->header_len);
    if (answer->has_entry)
        warn(name, "a tape holds no entry: %08lX is dropped", (unsigned long)answer->entry);
    answer->header_len = 0;
    answer->has_entry = 0;
    answer->entry = 0;
}

enum status run_convert(const struct options *options)
{
    const char *name = input_name(options->operands[0]);
    struct image image;
    enum status status;

    if (!(options->given & OPTION_TO))
        return trouble(NULL, "convert needs --to srec or --to tape");
    if (options->to != SREC_RECORDS && (options->given & OPTION_ENTRY))
        return trouble(NULL, "a tape holds no entry: --entry goes with --to srec");
    status = load_file(options->operands[0], options, 1, &image);
    if (status == DONE) {
        if (options->to == SREC_RECORDS)
            set_entry(options, &image);
        else
            drop(name, &image);
        status = put_text(options->to, &image, name, options->out);
    }
    close_image(&image);
    return status;
}
