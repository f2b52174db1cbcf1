/* pages.h: large pages for large buffers. */
#ifndef PAGES_H
#define PAGES_H

#include <stddef.h>

/* Asks for large pages under a buffer that was not used yet. With small ones the first use of each page is a good part of the
 * time that a large file takes. It is no error if there are none. */
void use_large_pages(void *buffer, size_t length);

#endif
