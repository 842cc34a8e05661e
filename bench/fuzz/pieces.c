#include "pieces.h"

#include "../reader/reader.h"

#include <stdlib.h>
#include <string.h>

/* ---- files as structures */

static void take_field(struct chart_record *to, const struct buffer *file, struct field field)
{
    struct chart_field *taken = add_field(to, "    ");
    for (unsigned i = 0; i < TAG; i++)
        taken->tag[i] = (char)(field.tag >> 8 * (TAG - 1 - i));
    buffer_put(&taken->content, file->bytes + field.start, field.length - 1);
}

bool take_apart(const struct buffer *file, bool update, struct chart *chart)
{
    struct framing framing = reader_frame(file->bytes, file->length);
    size_t start = 0;
    chart->update = update;
    for (size_t i = 0; framing.good && i < framing.records; i++) {
        struct record record = reader_record(file->bytes, start);
        struct chart_record *taken = add_record(&chart->list);
        for (size_t j = 0; j < record.entries; j++)
            take_field(taken, file, reader_field(file->bytes, &record, j));
        start = record.end;
    }
    return framing.good;
}

void put_together(struct chart *chart, struct buffer *file, struct random *random)
{
    struct style style = {.least_digits = 1, .plain = !random_one_in(random, 4)};
    struct draft draft = {0};
    for (size_t i = chart->list.count; i-- > 0;)
        if (chart->list.record[i].count == 0)
            remove_record(&chart->list, i);
    write_chart(chart, &style, &draft, random);
    buffer_free(file);
    *file = draft.file;
    free(draft.records);
}

struct chart_record *any_record(struct chart *chart, struct random *random)
{
    size_t first = random_one_in(random, 8) ? 0 : random_one_in(random, 4) ? 1 : FIRST_ITEM, count = chart->list.count;
    first = first < count ? first : 0;
    return count == 0 ? NULL : &chart->list.record[first + random_below(random, (uint32_t)(count - first))];
}

struct chart_field *identifier_of(const struct chart_record *record)
{
    enum { SHORTEST = 8 };
    bool named = record->count > 1 && (has_tag(&record->field[1], "VRID") || has_tag(&record->field[1], "FRID"));
    return named && record->field[1].content.length >= SHORTEST ? &record->field[1] : NULL;
}

struct chart_record *item_named(const struct chart *chart, const uint8_t *name)
{
    for (size_t i = 1; i < chart->list.count; i++) {
        const struct chart_field *identifier = identifier_of(&chart->list.record[i]);
        if (identifier != NULL && memcmp(identifier->content.bytes, name, NAME) == 0)
            return &chart->list.record[i];
    }
    return NULL;
}

/* ---- entries of lists */

static const struct list_kind list_kinds[] = {{"VRPT", 9, false}, {"FSPT", 8, false}, {"SG2D", 8, false}, {"SG3D", 12, false}, {"ATTV", 2, true},
                  {"ATTF", 2, true},  {"NATF", 2, true},  {"FFPT", 9, true}};

enum { LISTS = sizeof list_kinds / sizeof list_kinds[0] };

const struct list_kind *list_kind_of(const struct chart_field *field)
{
    for (size_t i = 0; i < LISTS; i++)
        if (has_tag(field, list_kinds[i].tag))
            return &list_kinds[i];
    return NULL;
}

size_t entry_end(const struct list_kind *kind, const struct buffer *content, size_t at)
{
    at += kind->size;
    while (kind->text && at < content->length && content->bytes[at] != UNIT_END)
        at++;
    at += kind->text;
    return at < content->length ? at : content->length;
}

size_t entries_of(const struct chart_field *field)
{
    const struct list_kind *kind = list_kind_of(field);
    size_t count = 0;
    for (size_t at = 0; kind != NULL && at < field->content.length; count++)
        at = entry_end(kind, &field->content, at);
    return count;
}
