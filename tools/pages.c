#define _DEFAULT_SOURCE /* for madvise */

#include "pages.h"

#include <stdint.h>
#include <sys/mman.h>
#include <unistd.h>

#ifdef MADV_HUGEPAGE

enum { LARGE = 1 << 21 };

/* The advice is for all pages that the buffer has a part of, and not for the aligned part alone: that would split its mapping, and
 * realloc would have to copy it. */
void use_large_pages(void *buffer, size_t length)
{
    uintptr_t page = (uintptr_t)sysconf(_SC_PAGESIZE);
    uintptr_t from = (uintptr_t)buffer / page * page;
    uintptr_t to = ((uintptr_t)buffer + length + page - 1) / page * page;

    if (buffer && length >= 2 * (size_t)LARGE)
        (void)madvise((void *)from, to - from, MADV_HUGEPAGE);
}

#else

void use_large_pages(void *buffer, size_t length)
{
    (void)buffer;
    (void)length;
}

#endif
