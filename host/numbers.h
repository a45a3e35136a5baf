/* Numbers in text. Each function answers 1 if the whole text is one number that is at most `most`, else 0:
 * no sign, no blanks. */
#ifndef HOST_NUMBERS_H
#define HOST_NUMBERS_H

#include <stddef.h>
#include <stdint.h>

/* Decimal, or hexadecimal behind 0x. */
int number_decimal(const char *text, size_t length, uint64_t most, uint64_t *number);

/* Hexadecimal, with 0x or without. */
int number_hex(const char *text, size_t length, uint64_t most, uint64_t *number);

/* Bytes: as number_decimal has them, or decimal with k or KiB (1,024), M or MiB (1,048,576) behind, in either letter
 * case. */
int number_size(const char *text, uint64_t *bytes);

/* A count: as number_decimal has it, or decimal with k (1,000), M (1,000,000) or G behind, in either letter case. */
int number_count(const char *text, uint64_t *count);

#endif
