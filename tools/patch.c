/* patch: a patch sheet, whose addresses go by the symbols of a text. */
#include <string.h>

#include "commands.h"
#include "image.h"
#include "overlay.h"
#include "refusal.h"

/* The files of a call; without --over the base is empty. */
struct files {
    struct input symbols;
    struct input sheet;
    struct input base;
};

static enum status open_files(const struct options *options, struct files *files)
{
    enum status status;

    memset(files, 0, sizeof *files);
    status = open_input(options->symbols, options, &files->symbols);
    files->symbols.kind = KIND_SYMBOLS;
    status = worse(status, open_input(options->operands[0], options, &files->sheet));
    if (options->over)
        status = worse(status, open_input(options->over, options, &files->base));
    return status;
}

static void close_files(struct files *files)
{
    close_input(&files->symbols);
    close_input(&files->sheet);
    close_input(&files->base);
}

static struct srec_range span_of_sheet(const struct files *files)
{
    return srec_span_sheet(files->symbols.bytes, files->symbols.length, files->sheet.bytes, files->sheet.length);
}

static enum status load_sheet(const struct files *files, struct image *image)
{
    struct window *window = &image->window;

    image->answer = srec_load_sheet(files->symbols.bytes, files->symbols.length, files->sheet.bytes,
                                    files->sheet.length, window->base, window->memory, window->length, window->marks,
                                    window->length);
    if (image->answer.reason == 0)
        return DONE;
    tell_refused_sheet(&files->symbols, &files->sheet, &image->answer);
    return REFUSED;
}

/* Loads the sheet, and lays it over the base if there is one. The result is in *image. */
static enum status load_files(const struct options *options, const struct files *files, struct image *image)
{
    struct srec_range span = span_of_sheet(files);
    struct image patch;
    enum status status;

    memset(&patch, 0, sizeof patch);
    if (options->over)
        span = both_spans(span, span_of(&files->base));
    status = open_window(options, span, 1, files->sheet.name, &image->window);
    if (status != DONE || !options->over)
        return status == DONE ? load_sheet(files, image) : status;
    status = open_window(options, span, 1, files->sheet.name, &patch.window);
    if (status == DONE)
        status = load_image(&files->base, image);
    if (status == DONE)
        status = load_sheet(files, &patch);
    if (status == DONE)
        status = lay_over(image, &patch, files->sheet.name);
    close_image(&patch);
    return status;
}

enum status run_patch(const struct options *options)
{
    struct files files;
    struct image image;
    enum status status;

    if (!options->symbols)
        return trouble(NULL, "patch needs --symbols TEXT");
    memset(&image, 0, sizeof image);
    status = open_files(options, &files);
    if (status == DONE)
        status = load_files(options, &files, &image);
    if (status == DONE) {
        set_entry(options, &image);
        status = put_text(SREC_RECORDS, &image, files.sheet.name, options->out);
    }
    close_files(&files);
    close_image(&image);
    return status;
}
