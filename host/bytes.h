/* Bytes on the heap, and big-endian words. */
#ifndef HOST_BYTES_H
#define HOST_BYTES_H

#include <stddef.h>
#include <stdint.h>

/* `at` is null before the first allocation only: the library takes no null pointer, not even with length 0. */
struct bytes {
    uint8_t *at;
    size_t length;
};

/* Makes `bytes` longer, with zeros; a length below its own is not cut. Answers 1, or 0 without memory and with
 * `bytes` as it was. */
int bytes_grow(struct bytes *bytes, size_t length);

void bytes_free(struct bytes *bytes);

uint32_t word_at(const uint8_t *at);

#endif
