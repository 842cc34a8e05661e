/* Record 0: 0000, then 0001, then tags of the table in any order, each at most once and described as the table says. */
#include "reader_parts.h"

#include <string.h>

/* The table's row of a tag, or KINDS. */
static unsigned kind_of(uint32_t tag)
{
    unsigned kind = 0;
    while (kind < KINDS && table[kind].tag != tag)
        kind++;
    return kind;
}

static bool says(const uint8_t *field, size_t length, const struct description *row)
{
    struct cut cut;
    struct formats written;
    if (!reader_cut(field, length, &cut))
        return false;
    const uint8_t *labels = field + cut.name_end + 1, *formats = field + cut.labels_end + 1;
    size_t labels_length = cut.labels_end - cut.name_end - 1, formats_length = length - 1 - (cut.labels_end + 1);
    if (labels_length != strlen(row->labels) || memcmp(labels, row->labels, labels_length) != 0)
        return false;
    if (!reader_formats(formats, formats_length, &written) || written.count != row->primitives)
        return false;
    return memcmp(written.primitive, row->formats, written.count * sizeof written.primitive[0]) == 0;
}

bool describe(struct reading *reading)
{
    struct record record = reader_record(reading->bytes, 0);
    if (record.entries < 2 || reader_field(reading->bytes, &record, 0).tag != TAG_0000)
        return false;
    reading->declared = 0;
    for (size_t index = 1; index < record.entries; index++) {
        struct field field = reader_field(reading->bytes, &record, index);
        unsigned kind = kind_of(field.tag);
        if (kind == KINDS || (kind == KIND_0001) != (index == 1) || reading->declared >> kind & 1)
            return false;
        if (!says(reading->bytes + field.start, field.length, &table[kind]))
            return false;
        reading->declared |= UINT32_C(1) << kind;
    }
    return true;
}
