/* info: what an image consists of. */
#include <inttypes.h>
#include <stdio.h>
#include <string.h>

#include "commands.h"
#include "image.h"
#include "map.h"
#include "print.h"
#include "runs.h"

/* The address bits of the narrowest records that hold all cells and the entry. */
static int width_of(const struct image *image)
{
    uint64_t highest = image->answer.entry;
    struct run run = {0, 0};

    while (next_run(&image->window, &run)) {
        uint64_t last = (uint64_t)image->window.base + run.to - 1;

        highest = last > highest ? last : highest;
    }
    return highest > 0xFFFFFF ? 32 : highest > 0xFFFF ? 24 : 16;
}

static void print_ranges(const struct window *window)
{
    struct run run = {0, 0};
    size_t ranges = 0;

    while (next_run(window, &run))
        ranges++;
    printf("ranges: %zu\n", ranges);
    run.from = run.to = 0;
    while (next_run(window, &run))
        printf("  %08" PRIX64 "..%08" PRIX64 " %zu\n", (uint64_t)window->base + run.from,
               (uint64_t)window->base + run.to - 1, run.to - run.from);
}

enum status run_info(const struct options *options)
{
    struct image image;
    enum status status = load_file(options->operands[0], options, 1, &image);

    if (status == DONE) {
        printf("format: %s\nheader: ", kind_name(image.kind));
        print_header(&image.answer);
        printf("\nentry: ");
        print_entry(&image.answer);
        printf("\nrecords: %zu\ncells: %zu\nwidth: %d\n", image.answer.records, image.answer.cells, width_of(&image));
        print_ranges(&image.window);
        if (options->given & OPTION_MAP)
            print_map(&image.window);
    }
    close_image(&image);
    return status;
}
