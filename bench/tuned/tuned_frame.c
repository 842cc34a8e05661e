/* "Framing (ISO/IEC 8211)" of any record, for those that the walk over vectors and features doesn't take. */
#include "tuned_parts.h"

enum { MOST_DIGITS = 9 };

static const uint32_t NONE = UINT32_MAX;

static uint32_t digits(const uint8_t *at, unsigned count)
{
    uint32_t number = 0;
    for (unsigned i = 0; i < count; i++) {
        uint32_t digit = at[i] - (uint32_t)'0';
        if (digit > 9)
            return NONE;
        number = number * 10 + digit;
    }
    return number;
}

static bool rows_fill(const struct framed *framed)
{
    const uint8_t *row = framed->rows;
    uint32_t due = 0, area = (uint32_t)(framed->end - framed->body);
    for (size_t i = 0; i < framed->count; i++) {
        uint32_t length = digits(row + TAG_SIZE, framed->lengths), position = digits(row + TAG_SIZE + framed->lengths, framed->positions);
        if (length == NONE || position != due || length == 0 || length > area - due)
            return false;
        due += length;
        if (framed->body[due - 1] != FIELD_END)
            return false;
        row += TAG_SIZE + framed->lengths + framed->positions;
    }
    return due == area;
}

bool frame_record(const uint8_t *at, const uint8_t *end, bool first, struct framed *framed)
{
    size_t left = (size_t)(end - at);
    if (left < LEADER || at[6] != (first ? 'L' : 'D') || (first && (at[10] != '0' || at[11] != '9')) || at[22] != '0' || at[23] != '4')
        return false;
    uint32_t length = digits(at, 5), base = digits(at + 12, 5), lengths = at[20] - (uint32_t)'0', positions = at[21] - (uint32_t)'0';
    if (length == NONE || base == NONE || length > left || base > length || lengths - 1 >= MOST_DIGITS || positions - 1 >= MOST_DIGITS)
        return false;
    uint32_t width = TAG_SIZE + lengths + positions;
    if (base < LEADER + width + 1 || (base - LEADER - 1) % width != 0 || at[base - 1] != FIELD_END)
        return false;
    *framed = (struct framed){at, at + LEADER, at + base, at + length, (base - LEADER - 1) / width, lengths, positions};
    return rows_fill(framed);
}

struct field framed_field(const struct framed *framed, size_t index)
{
    const uint8_t *row = framed->rows + index * (TAG_SIZE + framed->lengths + framed->positions);
    return (struct field){four(row), digits(row + TAG_SIZE, framed->lengths),
                          framed->body + digits(row + TAG_SIZE + framed->lengths, framed->positions)};
}

bool frame_rest(const struct file *file, const uint8_t *at, size_t record, size_t *count)
{
    const uint8_t *end = file->bytes + file->length;
    struct framed framed;
    for (; at < end; at = framed.end, record++)
        if (!frame_record(at, end, record == 0, &framed)) {
            *count = record;
            return false;
        }
    *count = record;
    return true;
}
