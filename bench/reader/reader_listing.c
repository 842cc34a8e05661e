/* The listing of a cell ("Bench sheet", last part): the verdict first, then the names in held order and the sizes of each record's lists. */
#include "reader_parts.h"

#include <inttypes.h>
#include <stdio.h>

enum { LONGEST_LISTED = 65536, FIRST_PLACE = 3, FEATURE = 100 };

enum column { ATTRIBUTES, POINTERS, COORDINATES, COLUMNS };

static const struct {
    enum kind kind;
    enum column column;
} lists[] = {
    {KIND_ATTV, ATTRIBUTES}, {KIND_ATTF, ATTRIBUTES}, {KIND_NATF, ATTRIBUTES},  {KIND_VRPT, POINTERS},
    {KIND_FFPT, POINTERS},   {KIND_FSPT, POINTERS},   {KIND_SG2D, COORDINATES}, {KIND_SG3D, COORDINATES},
};

/* ---- sizes */

/* What a field adds to the columns: nothing, unless it is a list. */
static void add_field_sizes(const uint8_t *bytes, const struct field *field, size_t *sizes)
{
    const uint8_t *content = bytes + field->start;
    for (size_t i = 0; i < sizeof lists / sizeof lists[0]; i++)
        if (table[lists[i].kind].tag == field->tag)
            sizes[lists[i].column] += count_groups(content, content + field->length - 1, table[lists[i].kind].runs);
}

/* ---- lines */

/* RVER stands behind RCNM and RCID in a vector, and behind PRIM, GRUP and OBJL too in a feature. */
static uint32_t version_of(const uint8_t *identifier)
{
    return number_at(identifier + (identifier[0] == FEATURE ? 9 : 5), 2);
}

static void put_item(struct buffer *listing, size_t place, const uint8_t *bytes, size_t start)
{
    struct record record = reader_record(bytes, start);
    const uint8_t *identifier = bytes + reader_field(bytes, &record, 1).start;
    size_t sizes[COLUMNS] = {0};
    char line[160];
    for (size_t i = 2; i < record.entries; i++) {
        struct field field = reader_field(bytes, &record, i);
        add_field_sizes(bytes, &field, sizes);
    }
    int length = snprintf(line, sizeof line, "%zu\t%u\t%" PRIu32 "\t%" PRIu32 "\t%zu\t%zu\t%zu\n", place, (unsigned)identifier[0],
                          number_at(identifier + 1, 4), version_of(identifier), sizes[ATTRIBUTES], sizes[POINTERS], sizes[COORDINATES]);
    buffer_put(listing, line, (size_t)length);
}

static void put_refusal(struct buffer *listing, const struct answer *answer)
{
    char line[64];
    int length = snprintf(line, sizeof line, "refused\t%" PRIu32 "\t%" PRIu32 "\t%" PRIu32 "\n", answer->code, answer->file, answer->record);
    buffer_put(listing, line, (size_t)length);
}

/* Of a cell that was judged 0. It is read once more, for its names. */
static void put_cell(struct buffer *listing, const uint8_t *cell, size_t length)
{
    static const char header[] = "index\tname\tid\tversion\tattributes\tpointers\tcoordinates\n";
    struct reading reading = {.bytes = cell, .length = length};
    read_files(&reading, NULL, SIZE_MAX);
    buffer_put(listing, header, sizeof header - 1);
    for (size_t i = 0; i < reading.name_count; i++)
        put_item(listing, FIRST_PLACE + i, cell, record_of(reading.names[i]));
    reading_close(&reading);
}

struct answer reader_listing(const uint8_t *cell, size_t length, struct buffer *listing)
{
    struct answer answer = {.code = CODE_LONG, .file = 1};
    if (length <= LONGEST_LISTED)
        answer = reader_judge(cell, length, SIZE_MAX);
    if (answer.code == CODE_DONE)
        put_cell(listing, cell, length);
    else
        put_refusal(listing, &answer);
    return answer;
}
