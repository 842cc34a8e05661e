/* The section "Framing" of document 01: leader, directory and fields of every record, in one pass and without memory of its own. */
#include "reader.h"

enum { LEADER = 24, TAG = 4, FIELD_END = 0x1E };

/* Nine digits are the most a size can ask for, so that 32 bits hold every number. */
static inline bool read_digits(const uint8_t *at, unsigned count, uint32_t *number)
{
    uint32_t value = 0;
    for (unsigned i = 0; i < count; i++) {
        unsigned digit = at[i] - (unsigned)'0';
        if (digit > 9)
            return false;
        value = value * 10 + digit;
    }
    *number = value;
    return true;
}

/* The leader, and that the base address cuts the directory into whole entries closed by 1E. `left` is what the file has from here on. */
static inline bool read_leader(const uint8_t *leader, size_t left, bool first, struct record *record)
{
    uint32_t length, base;
    if (left < LEADER || !read_digits(leader, 5, &length) || !read_digits(leader + 12, 5, &base))
        return false;
    if (leader[6] != (first ? 'L' : 'D') || length > left || base > length)
        return false;
    if (first && (leader[10] != '0' || leader[11] != '9'))
        return false;
    unsigned length_digits = leader[20] - (unsigned)'0', position_digits = leader[21] - (unsigned)'0';
    if (length_digits - 1 > 8 || position_digits - 1 > 8 || leader[22] != '0' || leader[23] != '4')
        return false;
    size_t entry = TAG + length_digits + position_digits;
    if (base < LEADER + entry + 1 || (base - LEADER - 1) % entry != 0 || leader[base - 1] != FIELD_END)
        return false;
    record->end = record->start + length;
    record->directory = record->start + LEADER;
    record->fields = record->start + base;
    record->entries = (base - LEADER - 1) / entry;
    record->length_digits = length_digits;
    record->position_digits = position_digits;
    return true;
}

/* The entries: positions from 0 without gaps, lengths of at least 1, each field closed by 1E, the last one ending with the record. */
static inline bool fields_fill(const uint8_t *file, const struct record *record)
{
    const unsigned length_digits = record->length_digits, position_digits = record->position_digits;
    const uint8_t *fields = file + record->fields;
    const uint8_t *entry = file + record->directory;
    const uint8_t *stop = fields - 1;
    uint32_t due = 0, area = (uint32_t)(record->end - record->fields);
    while (entry < stop) {
        uint32_t length, position;
        entry += TAG;
        if (!read_digits(entry, length_digits, &length) || !read_digits(entry + length_digits, position_digits, &position))
            return false;
        entry += length_digits + position_digits;
        if (position != due || length == 0 || length > area - due)
            return false;
        due += length;
        if (fields[due - 1] != FIELD_END)
            return false;
    }
    return due == area;
}

struct framing reader_frame(const uint8_t *file, size_t length)
{
    struct framing framing = {false, 0};
    struct record record = {0};
    /* Written so that length 0 fails at record 0: a file is at least one record. */
    do {
        if (!read_leader(file + record.start, length - record.start, framing.records == 0, &record))
            return framing;
        if (!fields_fill(file, &record))
            return framing;
        framing.records++;
        record.start = record.end;
    } while (record.start < length);
    framing.good = true;
    return framing;
}

/* A number of a file whose digits were checked before. */
static inline uint32_t known_digits(const uint8_t *at, unsigned count)
{
    uint32_t value = 0;
    for (unsigned i = 0; i < count; i++)
        value = value * 10 + (at[i] - (uint32_t)'0');
    return value;
}

struct record reader_record(const uint8_t *file, size_t start)
{
    const uint8_t *leader = file + start;
    struct record record = {.start = start};
    uint32_t base = known_digits(leader + 12, 5);
    record.end = start + known_digits(leader, 5);
    record.directory = start + LEADER;
    record.fields = start + base;
    record.length_digits = leader[20] - (unsigned)'0';
    record.position_digits = leader[21] - (unsigned)'0';
    record.entries = (base - LEADER - 1) / (TAG + record.length_digits + record.position_digits);
    return record;
}

struct field reader_field(const uint8_t *file, const struct record *record, size_t index)
{
    size_t size = TAG + record->length_digits + record->position_digits;
    const uint8_t *entry = file + record->directory + index * size;
    struct field field;
    field.tag = (uint32_t)entry[0] << 24 | (uint32_t)entry[1] << 16 | (uint32_t)entry[2] << 8 | entry[3];
    field.length = known_digits(entry + TAG, record->length_digits);
    field.start = record->fields + known_digits(entry + TAG + record->length_digits, record->position_digits);
    return field;
}

static inline uint64_t mix(uint64_t sum, uint64_t number)
{
    return (sum * 31 + number) % UINT64_C(4294967291);
}

uint64_t reader_fields(const uint8_t *file, size_t length)
{
    if (!reader_frame(file, length).good)
        return 0;
    uint64_t sum = 1;
    for (size_t start = 0; start < length;) {
        struct record record = reader_record(file, start);
        sum = mix(sum, record.end);
        for (size_t index = 0; index < record.entries; index++) {
            struct field field = reader_field(file, &record, index);
            sum = mix(mix(mix(sum, field.tag), field.start), field.length);
        }
        start = record.end;
    }
    return sum;
}
