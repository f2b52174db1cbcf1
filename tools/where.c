/* where: which line gives a cell? */
#include <inttypes.h>
#include <stdio.h>
#include <string.h>

#include "commands.h"
#include "image.h"
#include "place.h"
#include "status.h"

/* Tells where the text is refused, if it is: what stands there is not looked at. Nothing is told of a text whose window would
 * have to be asked for: the cells were looked for without one. */
static enum status tell_refused(const struct input *input, const struct options *options)
{
    struct srec_range span = span_of(input);
    struct image image;
    enum status status;

    if (!(options->given & OPTION_WINDOW) && is_wide(span))
        return DONE;
    memset(&image, 0, sizeof image);
    status = open_window(options, span, 1, input->name, &image.window);
    if (status == DONE)
        status = load_image(input, &image);
    close_image(&image);
    return status;
}

/* REFUSED if no record gives the cell. */
static enum status find(const struct input *input, uint32_t address)
{
    struct records records = records_of(input);
    struct srec_origin origin = srec_where(records.format, records.text, records.length, address);

    if (origin.record == 0) {
        fprintf(stderr, "%s: no record gives %08" PRIX32 "\n", input->name, address);
        return REFUSED;
    }
    printf("%s:%zu: %08" PRIX32 " %02" PRIX32 "\n", input->name, spot_of(input, origin.place + input->start).line,
           address, origin.byte);
    return DONE;
}

static enum status read_addresses(const struct options *options)
{
    for (int i = 1; i < options->operand_count; i++) {
        uint64_t address;

        if (read_hex(options->operands[i], UINT32_MAX, &address) != 0)
            return trouble(NULL, "'%s' is no address: it takes up to FFFFFFFF in hex digits", options->operands[i]);
    }
    return DONE;
}

enum status run_where(const struct options *options)
{
    struct input input;
    enum status status = read_addresses(options);

    if (status != DONE)
        return status;
    status = open_input(options->operands[0], options, &input);
    if (status == DONE) {
        for (int i = 1; i < options->operand_count; i++) {
            uint64_t address = 0;

            read_hex(options->operands[i], UINT32_MAX, &address);
            status = worse(status, find(&input, (uint32_t)address));
        }
        if (status != DONE)
            status = worse(status, tell_refused(&input, options));
    }
    close_input(&input);
    return status;
}
