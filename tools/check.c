/* check: are these files accepted? */
#include "commands.h"
#include "image.h"

enum status run_check(const struct options *options)
{
    enum status status = DONE;

    for (int i = 0; i < options->operand_count; i++) {
        struct image image;

        status = worse(status, load_file(options->operands[i], options, 1, &image));
        close_image(&image);
    }
    return status;
}
