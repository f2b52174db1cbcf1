/* twin.h: the twins of the library, C functions that do the same work.
 *
 * Each has the contract of srec_load and srec_write, see include/srec.h: the same rows in the same order, memory
 * unchanged after a refusal, one canonical text.
 */
#ifndef TWIN_H
#define TWIN_H

#include <stddef.h>
#include <stdint.h>

typedef uint32_t load_function(const uint8_t *text, size_t text_len, uint32_t base, uint8_t *memory, size_t memory_len,
                               uint8_t *marks, size_t marks_len);

typedef size_t write_function(uint32_t base, const uint8_t *memory, size_t memory_len, const uint8_t *marks,
                              size_t marks_len, const uint8_t *header, size_t header_len, uint32_t entry, uint8_t *out,
                              size_t out_len);

/* plain.c, without and with TABLE defined. */
load_function plain_load, table_load;
write_function plain_write, table_write;

/* tuned.c */
load_function tuned_load;
write_function tuned_write;

#endif
