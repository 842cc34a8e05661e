/* The leader and the directory of a record that is written. */
#include "reader_parts.h"

#include <string.h>

enum { LEADER = 24, TAG = 4 };

static unsigned digits_of(size_t number)
{
    unsigned digits = 1;
    for (; number >= 10; number /= 10)
        digits++;
    return digits;
}

static uint8_t *put_digits(uint8_t *to, unsigned count, size_t number)
{
    for (unsigned i = count; i-- > 0; number /= 10)
        to[i] = (uint8_t)('0' + number % 10);
    return to + count;
}

static uint8_t *put_bytes(uint8_t *to, const void *from, size_t count)
{
    memcpy(to, from, count);
    return to + count;
}

void outline_add(struct outline *outline, uint32_t tag, size_t length)
{
    outline->tag[outline->fields] = tag;
    outline->length[outline->fields++] = length;
}

void outline_close(struct outline *outline)
{
    size_t longest = 0, area = 0;
    for (size_t i = 0; i < outline->fields; i++) {
        longest = outline->length[i] > longest ? outline->length[i] : longest;
        area += outline->length[i];
    }
    outline->length_digits = digits_of(longest);
    outline->position_digits = digits_of(area - outline->length[outline->fields - 1]);
    outline->base = LEADER + outline->fields * (TAG + outline->length_digits + outline->position_digits) + 1;
    outline->size = outline->base + area;
}

uint8_t *outline_put(const struct outline *outline, const char *middle, const char *last, uint8_t *to)
{
    size_t position = 0;
    to = put_digits(to, 5, outline->size);
    to = put_bytes(to, middle, 7);
    to = put_digits(to, 5, outline->base);
    to = put_bytes(to, last, 3);
    to = put_digits(to, 1, outline->length_digits);
    to = put_digits(to, 1, outline->position_digits);
    to = put_bytes(to, "04", 2);
    for (size_t i = 0; i < outline->fields; i++) {
        for (unsigned shift = 32; shift > 0; shift -= 8)
            *to++ = (uint8_t)(outline->tag[i] >> (shift - 8));
        to = put_digits(to, outline->length_digits, outline->length[i]);
        to = put_digits(to, outline->position_digits, position);
        position += outline->length[i];
    }
    *to++ = FIELD_END;
    return to;
}
