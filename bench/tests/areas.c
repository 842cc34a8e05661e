#include "areas.h"

#include <stdio.h>
#include <stdlib.h>
#include <string.h>

uint8_t *exact_copy(const struct buffer *from)
{
    uint8_t *copy = grow(NULL, from->length > 0 ? from->length : 1, 1);
    if (from->length > 0)
        memcpy(copy, from->bytes, from->length);
    return copy;
}

uint8_t *lent_area(size_t length)
{
    uint8_t *memory = grow(NULL, length + 2 * GUARD, 1);
    memset(memory, PATTERN, length + 2 * GUARD);
    return memory + GUARD;
}

uint8_t *guarded_copy(const struct buffer *from)
{
    uint8_t *copy = lent_area(from->length);
    if (from->length > 0)
        memcpy(copy, from->bytes, from->length);
    return copy;
}

void lent_free(uint8_t *area)
{
    free(area - GUARD);
}

bool guards_kept(const uint8_t *area, size_t length)
{
    return all_are(area - GUARD, GUARD, PATTERN) && all_are(area + length, GUARD, PATTERN);
}

bool all_are(const uint8_t *area, size_t length, uint8_t byte)
{
    return length == 0 || (area[0] == byte && memcmp(area, area + 1, length - 1) == 0);
}

void print_bytes(const uint8_t *bytes, size_t length)
{
    enum { SHOWN = 256 };
    size_t shown = length < SHOWN ? length : SHOWN;
    for (size_t i = 0; i < shown; i++)
        printf("%s%02x", i == 0 ? "    " : i % 32 == 0 ? "\n    " : " ", bytes[i]);
    printf("%s\n", shown < length ? " .." : "");
}

/* It takes the largest block that was given back, up to 32 MB, for a measure of what is worth keeping. */
void keep_memory(void)
{
    enum { ALMOST_32_MB = (32 << 20) - 65536 };
    free(grow(NULL, ALMOST_32_MB, 1));
}
