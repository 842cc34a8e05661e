/* Records and fields before they are bytes, and the writer. */
#include "generate_chart.h"

#include <stdlib.h>
#include <string.h>

enum { UNIT_END = 0x1F, LEADER = 24, TAG = 4 };

/* ---- records */

struct chart_record *insert_record(struct record_list *list, size_t at)
{
    if (list->count == list->room) {
        list->room = 2 * list->room + 16;
        list->record = grow(list->record, list->room, sizeof list->record[0]);
    }
    memmove(list->record + at + 1, list->record + at, (list->count - at) * sizeof list->record[0]);
    list->count++;
    list->record[at] = (struct chart_record){0};
    return &list->record[at];
}

struct chart_record *add_record(struct record_list *list)
{
    return insert_record(list, list->count);
}

static void record_free(struct chart_record *record)
{
    for (size_t i = 0; i < record->count; i++)
        buffer_free(&record->field[i].content);
    free(record->field);
}

void remove_record(struct record_list *list, size_t at)
{
    record_free(&list->record[at]);
    list->count--;
    memmove(list->record + at, list->record + at + 1, (list->count - at) * sizeof list->record[0]);
}

struct chart_record copy_record(const struct chart_record *record)
{
    struct chart_record copy = {0};
    for (size_t i = 0; i < record->count; i++) {
        const struct chart_field *from = &record->field[i];
        struct chart_field *to = insert_field(&copy, copy.count, NULL);
        memcpy(to->tag, from->tag, TAG);
        buffer_put(&to->content, from->content.bytes, from->content.length);
    }
    return copy;
}

void chart_free(struct chart *chart)
{
    for (size_t i = 0; i < chart->list.count; i++)
        record_free(&chart->list.record[i]);
    free(chart->list.record);
    *chart = (struct chart){0};
}

/* ---- fields */

struct chart_field *insert_field(struct chart_record *record, size_t at, const char *tag)
{
    if (record->count == record->room) {
        record->room = 2 * record->room + 4;
        record->field = grow(record->field, record->room, sizeof record->field[0]);
    }
    struct chart_field *field = record->field + at;
    memmove(field + 1, field, (record->count - at) * sizeof *field);
    record->count++;
    *field = (struct chart_field){0};
    if (tag != NULL)
        memcpy(field->tag, tag, TAG);
    return field;
}

struct chart_field *add_field(struct chart_record *record, const char *tag)
{
    return insert_field(record, record->count, tag);
}

void remove_field(struct chart_record *record, size_t at)
{
    buffer_free(&record->field[at].content);
    record->count--;
    memmove(record->field + at, record->field + at + 1, (record->count - at) * sizeof record->field[0]);
}

bool has_tag(const struct chart_field *field, const char *tag)
{
    return memcmp(field->tag, tag, TAG) == 0;
}

size_t find_field(const struct chart_record *record, const char *tag)
{
    size_t at = 0;
    while (at < record->count && !has_tag(&record->field[at], tag))
        at++;
    return at;
}

bool pick_field(const struct chart *chart, const char *tag, struct random *random, size_t *record, size_t *field)
{
    uint32_t met = 0;
    for (size_t i = 1; i < chart->list.count; i++)
        for (size_t j = 0; j < chart->list.record[i].count; j++) {
            if (!has_tag(&chart->list.record[i].field[j], tag))
                continue;
            met++;
            /* the one met last replaces the choice so far with the chance that makes all alike */
            if (random_one_in(random, met)) {
                *record = i;
                *field = j;
            }
        }
    return met > 0;
}

/* ---- subfields */

void set_number(uint8_t *at, unsigned width, uint64_t number)
{
    for (unsigned i = 0; i < width; i++)
        at[i] = (uint8_t)(number >> 8 * i);
}

uint64_t get_number(const uint8_t *at, unsigned width)
{
    uint64_t number = 0;
    for (unsigned i = width; i-- > 0;)
        number = number << 8 | at[i];
    return number;
}

void put_number(struct buffer *content, unsigned width, uint64_t number)
{
    set_number(buffer_more(content, width), width, number);
}

void put_text(struct buffer *content, const char *text)
{
    buffer_put(content, text, strlen(text));
    *buffer_more(content, 1) = UNIT_END;
}

/* Where the subfield after one of this format begins, which begins at `at`. */
static size_t subfield_end(const struct chart_field *field, size_t at, const char *format)
{
    unsigned width = format_width(format);
    if (width > 0)
        return at + width;
    while (field->content.bytes[at] != UNIT_END)
        at++;
    return at + 1;
}

struct place entry_place(const struct chart_field *field, size_t entry)
{
    const struct tag_row *row = row_of_tag(field->tag);
    struct place place = {0, 0};
    for (size_t group = 0; group <= entry; group++) {
        size_t at = place.start += place.length;
        for (size_t i = 0; i < row->count; i++)
            at = subfield_end(field, at, row->subfield[i].format);
        place.length = at - place.start;
    }
    return place;
}

size_t count_entries(const struct chart_field *field)
{
    size_t entries = 0, at = 0;
    const struct tag_row *row = row_of_tag(field->tag);
    for (; at < field->content.length; entries++)
        for (size_t i = 0; i < row->count; i++)
            at = subfield_end(field, at, row->subfield[i].format);
    return entries;
}

struct place subfield_place(const struct chart_field *field, size_t entry, const char *label)
{
    const struct tag_row *row = row_of_tag(field->tag);
    size_t at = entry_place(field, entry).start, i = 0;
    for (; strcmp(row->subfield[i].label, label) != 0; i++)
        at = subfield_end(field, at, row->subfield[i].format);
    size_t end = subfield_end(field, at, row->subfield[i].format);
    return (struct place){at, end - at - (format_width(row->subfield[i].format) == 0)};
}

void replace_bytes(struct buffer *content, struct place place, const void *bytes, size_t count)
{
    buffer_remove(content, place.start, place.length);
    memcpy(buffer_open(content, place.start, count), bytes, count);
}

/* ---- other legal ways to say the same */

/* Moves the entries of a list field from `entry` on into a field of their own, right after it. */
static void split_field(struct chart_record *record, size_t at, size_t entry)
{
    size_t cut = entry_place(&record->field[at], entry).start;
    struct chart_field *later = insert_field(record, at + 1, NULL), *field = &record->field[at];
    memcpy(later->tag, field->tag, TAG);
    buffer_put(&later->content, field->content.bytes + cut, field->content.length - cut);
    field->content.length = cut;
}

void split_lists(struct chart *chart, struct random *random)
{
    for (size_t i = 1; i < chart->list.count; i++) {
        struct chart_record *record = &chart->list.record[i];
        for (size_t at = 0; at < record->count; at++) {
            size_t entries = count_entries(&record->field[at]);
            if (entries > 1 && random_one_in(random, 3))
                split_field(record, at, random_between(random, 1, (uint32_t)entries - 1));
        }
    }
}

/* ---- counts */

static unsigned head_of_record(const struct chart_record *record)
{
    enum { NOMR, NOCR, NOGR, NOLR, NOIN, NOCN, NOED };
    const uint8_t *identifier = record->field[1].content.bytes;
    uint64_t object = get_number(identifier + 7, 2);
    if (has_tag(&record->field[1], "VRID"))
        return identifier[0] == 110 ? NOIN : identifier[0] == 120 ? NOCN : NOED;
    return object >= 400 ? NOLR : object >= 300 ? NOMR : NOGR;
}

void count_records(struct chart *chart)
{
    uint8_t *counts = chart->list.record[1].field[2].content.bytes + 3;
    memset(counts, 0, 32);
    for (size_t i = chart->update ? 2 : 3; i < chart->list.count; i++) {
        uint8_t *count = counts + (size_t)4 * head_of_record(&chart->list.record[i]);
        set_number(count, 4, get_number(count, 4) + 1);
    }
}

/* ---- writing */

/* The record's frame comes from the framing generator, which fills fields with any bytes; tags and contents are then put over them. */
static void write_record(const struct chart_record *record, const struct style *style, struct draft *draft, struct random *random)
{
    uint32_t *lengths = grow(NULL, record->count, sizeof lengths[0]);
    for (size_t i = 0; i < record->count; i++)
        lengths[i] = (uint32_t)record->field[i].content.length + 1;
    draft_record(draft, style, lengths, record->count, random);
    const struct record_plan *plan = &draft->records[draft->count - 1];
    uint8_t *entry = draft->file.bytes + plan->start + LEADER, *content = draft->file.bytes + plan->start + plan->base;
    for (size_t i = 0; i < record->count; i++) {
        const struct chart_field *field = &record->field[i];
        memcpy(entry, field->tag, TAG);
        if (field->content.length > 0)
            memcpy(content, field->content.bytes, field->content.length);
        entry += TAG + plan->length_digits + plan->position_digits;
        content += lengths[i];
    }
    free(lengths);
}

void write_chart(const struct chart *chart, const struct style *style, struct draft *draft, struct random *random)
{
    for (size_t i = 0; i < chart->list.count; i++)
        write_record(&chart->list.record[i], style, draft, random);
}

void dress_leader(uint8_t *leader)
{
    leader[5] = '3';
    memcpy(leader + 7, "E1 ", 3);
    memcpy(leader + 17, " ! ", 3);
}

size_t fault_offset(const struct fault *fault, const struct chart *chart, const struct draft *draft)
{
    if (fault->spot == AT_FILE_END)
        return draft->file.length;
    const struct record_plan *plan = &draft->records[fault->record];
    if (fault->spot != AT_BYTE)
        return plan->start + (fault->spot == AT_RECORD ? 0 : plan->length);
    size_t at = plan->start + plan->base;
    for (size_t i = 0; i < fault->field; i++)
        at += chart->list.record[fault->record].field[i].content.length + 1;
    return at + fault->byte;
}
