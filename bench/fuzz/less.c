#include "less.h"

#include "follow.h"
#include "pieces.h"

/* Record 0: all of 0000, and of others what stands between nine bytes and the first 1F. */
static void drop_name(struct chart_field *field)
{
    enum { CONTROLS = 9 };
    struct buffer *content = &field->content;
    size_t end = CONTROLS;
    while (end < content->length && content->bytes[end] != UNIT_END)
        end++;
    if (has_tag(field, "0000"))
        content->length = 0;
    else if (end < content->length)
        buffer_remove(content, CONTROLS, end - CONTROLS);
}

static void drop_entry(struct chart_field *field, size_t index)
{
    const struct list_kind *kind = list_kind_of(field);
    size_t at = 0;
    for (; index > 0; index--)
        at = entry_end(kind, &field->content, at);
    buffer_remove(&field->content, at, entry_end(kind, &field->content, at) - at);
}

/* How many parts a field has beside itself. */
static size_t parts_within(size_t record, const struct chart_field *field)
{
    return record == 0 ? 1 : entries_of(field);
}

/* Whether the part was in this record, of which it is the next to be counted; else it is counted on. */
static bool drop_in_record(struct chart *chart, size_t record, size_t *part)
{
    struct chart_record *from = &chart->list.record[record];
    if ((*part)-- == 0) {
        remove_record(&chart->list, record);
        return true;
    }
    for (size_t at = 0; at < from->count; at++) {
        size_t within = parts_within(record, &from->field[at]);
        if (*part == 0) {
            remove_field(from, at);
            return true;
        }
        if (*part <= within) {
            if (record == 0)
                drop_name(&from->field[at]);
            else
                drop_entry(&from->field[at], *part - 1);
            return true;
        }
        *part -= 1 + within;
    }
    return false;
}

bool drop_part(struct input *input, enum file file, size_t part)
{
    struct random random = {0};
    struct chart chart = {0};
    bool dropped = false;
    if (take_apart(&input->file[file], file == UPDATE, &chart))
        for (size_t record = 0; record < chart.list.count && !dropped; record++)
            dropped = drop_in_record(&chart, record, &part);
    if (dropped) {
        put_counts(&chart);
        put_together(&chart, &input->file[file], &random);
    }
    chart_free(&chart);
    return dropped;
}
