/* overlay.h: one image laid over another, in windows of the same base and length. */
#ifndef OVERLAY_H
#define OVERLAY_H

#include "image.h"

/* The name is the patch's, for messages. */
enum status lay_over(struct image *base, const struct image *patch, const char *name);

#endif
