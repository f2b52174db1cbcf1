/* output.h: texts to standard output, or to files that are replaced as a whole or not at all. */
#ifndef OUTPUT_H
#define OUTPUT_H

#include <stddef.h>
#include <stdint.h>

#include "status.h"

/* A text to be written. */
struct product {
    uint8_t *bytes;
    size_t length;
};

/* Writes a text to a file, or to standard output if the path is NULL. */
enum status put_product(const char *path, const struct product *product);

/* Writes several texts to as many files: no file is replaced before all texts are on the disk. */
enum status put_products(const char *const *paths, const struct product *products, size_t count);

/* Flushes standard output, and tells if some of it was lost. */
enum status close_output(void);

#endif
