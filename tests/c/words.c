/* words: srec_reason has words of their own for 0 to 27, and none for other numbers. */
#include <limits.h>
#include <string.h>

#include "check.h"
#include "srec.h"

enum { LAST = 27 };

int main(void)
{
    for (unsigned number = 0; number <= LAST; number++) {
        const char *words = srec_reason(number);
        CHECK(words != NULL);
        if (!words)
            continue;
        CHECK(strlen(words) > 0);
        for (unsigned other = 0; other < number; other++)
            CHECK(srec_reason(other) == NULL || strcmp(words, srec_reason(other)) != 0);
    }
    CHECK(srec_reason(LAST + 1) == NULL);
    CHECK(srec_reason(UINT_MAX) == NULL);
    return failures != 0;
}
