/* Leaders and directories of the held form. */
#include "tuned_parts.h"

static uint32_t digits_of(uint32_t number)
{
    return 1u + (number > 9) + (number > 99) + (number > 999) + (number > 9999) + (number > 99999);
}

uint32_t held_length(uint32_t fields, uint32_t longest, uint32_t last, uint32_t area)
{
    return LEADER + fields * (TAG_SIZE + digits_of(longest) + digits_of(last)) + 1 + area;
}

static uint32_t last_position(const struct outline *outline)
{
    return outline->area - outline->length[outline->fields - 1];
}

uint32_t outline_length(const struct outline *outline)
{
    return held_length(outline->fields, outline->longest, last_position(outline), outline->area);
}

/* A number that doesn't fit loses its highest digits: what holds it is refused before it is seen. */
static uint8_t *put_digits(uint8_t *to, uint32_t count, uint32_t number)
{
    for (uint32_t left = count; left > 0; left--) {
        /* a tenth, without dividing */
        uint32_t tenth = (uint32_t)((uint64_t)number * UINT64_C(0xCCCCCCCD) >> 35);
        to[left - 1] = (uint8_t)('0' + (number - 10 * tenth));
        number = tenth;
    }
    return to + count;
}

uint8_t *put_outline(const struct outline *outline, uint8_t *to)
{
    const uint32_t lengths = digits_of(outline->longest), positions = digits_of(last_position(outline)), length = outline_length(outline);
    uint32_t position = 0;
    memcpy(to, "00000 D     00000   0004", LEADER);
    put_digits(to, 5, length);
    put_digits(to + 12, 5, length - outline->area);
    to[20] = (uint8_t)('0' + lengths);
    to[21] = (uint8_t)('0' + positions);
    to += LEADER;
    for (uint32_t i = 0; i < outline->fields; i++) {
        memcpy(to, &outline->tag[i], TAG_SIZE);
        to = put_digits(to + TAG_SIZE, lengths, outline->length[i]);
        to = put_digits(to, positions, position);
        position += outline->length[i];
    }
    *to++ = FIELD_END;
    return to;
}
