#include "print.h"

#include <inttypes.h>
#include <stdio.h>

void print_header(const struct srec_loaded *answer)
{
    putchar('"');
    for (size_t i = 0; i < answer->header_len; i++) {
        uint8_t byte = answer->header[i];

        if (byte == '"' || byte == '\\')
            printf("\\%c", byte);
        else if (byte >= 0x20 && byte < 0x7F)
            putchar(byte);
        else
            printf("\\x%02X", byte);
    }
    putchar('"');
}

void print_entry(const struct srec_loaded *answer)
{
    if (answer->has_entry)
        printf("%08" PRIX32, answer->entry);
    else
        printf("none");
}
