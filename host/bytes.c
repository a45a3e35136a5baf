#include "bytes.h"

#include <stdlib.h>
#include <string.h>

int bytes_grow(struct bytes *bytes, size_t length)
{
    uint8_t *at;

    if (bytes->at != NULL && length <= bytes->length)
        return 1;
    at = calloc(length == 0 ? 1 : length, 1);
    if (at == NULL)
        return 0;
    if (bytes->length != 0)
        memcpy(at, bytes->at, bytes->length);
    free(bytes->at);
    bytes->at = at;
    bytes->length = length;
    return 1;
}

void bytes_free(struct bytes *bytes)
{
    free(bytes->at);
    bytes->at = NULL;
    bytes->length = 0;
}

uint32_t word_at(const uint8_t *at)
{
    return (uint32_t)at[0] << 24 | (uint32_t)at[1] << 16 | (uint32_t)at[2] << 8 | at[3];
}
