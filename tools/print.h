/* print.h: headers and entries as they are shown. */
#ifndef PRINT_H
#define PRINT_H

#include "srec.h"

/* Prints the header in quotes on standard output, with \xNN for what is not printable ASCII. */
void print_header(const struct srec_loaded *answer);

/* Prints the entry in eight hex digits, or `none`. */
void print_entry(const struct srec_loaded *answer);

#endif
