/* What the makers of pairs share: records and lists of a chart, the header of an update, and pairs that are found from their result. */
#include "generate_pair.h"

#include "generate_scene.h"

#include <stdio.h>
#include <stdlib.h>
#include <string.h>

enum { NAME = 5, RVER_OF_VECTOR = 5, RVER_OF_FEATURE = 9 };

/* ---- charts and records */

void pair_free(struct chart_pair *pair)
{
    chart_free(&pair->cell);
    chart_free(&pair->update);
    chart_free(&pair->result);
}

struct chart copy_chart(const struct chart *chart)
{
    struct chart copy = {.update = chart->update};
    for (size_t i = 0; i < chart->list.count; i++)
        *add_record(&copy.list) = copy_record(&chart->list.record[i]);
    return copy;
}

bool is_vector(const struct chart_record *record)
{
    return has_tag(&record->field[1], "VRID");
}

const uint8_t *name_of_record(const struct chart_record *record)
{
    return record->field[1].content.bytes;
}

static uint8_t *version_at(const struct chart_record *record)
{
    return record->field[1].content.bytes + (is_vector(record) ? RVER_OF_VECTOR : RVER_OF_FEATURE);
}

uint64_t version_of_record(const struct chart_record *record)
{
    return get_number(version_at(record), 2);
}

void set_version(struct chart_record *record, uint64_t version)
{
    set_number(version_at(record), 2, version);
}

uint8_t *instruction_of(const struct chart_record *record)
{
    return version_at(record) + 2;
}

struct chart_record *find_item(const struct chart *chart, size_t from, const uint8_t *name)
{
    for (size_t i = from; i < chart->list.count; i++)
        if (memcmp(name_of_record(&chart->list.record[i]), name, NAME) == 0)
            return &chart->list.record[i];
    return NULL;
}

uint32_t free_id(const struct chart_pair *pair, uint8_t class, struct random *random)
{
    uint8_t name[NAME] = {class};
    for (;;) {
        uint32_t id = random_one_in(random, 2) ? random_between(random, 1, 200) : random_between(random, 1, UINT32_C(4294967294));
        set_number(name + 1, 4, id);
        if (find_item(&pair->cell, FIRST_CELL_ITEM, name) == NULL && find_item(&pair->update, FIRST_UPDATE_ITEM, name) == NULL &&
            find_item(&pair->result, FIRST_CELL_ITEM, name) == NULL)
            return id;
    }
}

struct chart_record *say_change(struct chart *update, const struct chart_record *item, uint64_t version, uint8_t instruction, struct random *random)
{
    struct chart_record copy = copy_record(item);
    while (copy.count > (is_vector(item) ? 2 : 3))
        remove_field(&copy, copy.count - 1);
    set_number(copy.field[0].content.bytes, 2, random_next(random));
    set_version(&copy, version);
    *instruction_of(&copy) = instruction;
    struct chart_record *record = add_record(&update->list);
    *record = copy;
    return record;
}

static void swap_records(struct chart_record *left, struct chart_record *right)
{
    struct chart_record kept = *left;
    *left = *right;
    *right = kept;
}

void arrange(struct chart *chart, struct random *random)
{
    size_t first = chart->update ? FIRST_UPDATE_ITEM : FIRST_CELL_ITEM, vectors = first, count = chart->list.count;
    struct chart_record *record = chart->list.record;
    for (size_t i = first; i < count; i++)
        if (is_vector(&record[i]))
            swap_records(&record[vectors++], &record[i]);
    for (size_t i = first; i < count; i++) {
        size_t end = i < vectors ? vectors : count;
        swap_records(&record[i], &record[random_between(random, (uint32_t)i, (uint32_t)end - 1)]);
    }
}

/* ---- lists */

const struct controlled controlled_lists[4] = {
    {"VRPT", "VRPC", true}, {"SG2D", "SGCC", true}, {"FFPT", "FFPC", false}, {"FSPT", "FSPC", false}};

static size_t rank_of_tag(const char *tag)
{
    static const char order[] = "0001VRIDFRIDFOIDATTVATTFNATFVRPCVRPTSGCCSG2DSG3DFFPCFFPTFSPCFSPT";
    size_t rank = 0;
    while (memcmp(order + 4 * rank, tag, 4) != 0)
        rank++;
    return rank;
}

size_t place_of_tag(const struct chart_record *record, const char *tag)
{
    size_t place = 0, rank = rank_of_tag(tag);
    while (place < record->count && rank_of_tag(record->field[place].tag) < rank)
        place++;
    return place;
}

const char *coordinates_of(const struct chart_record *record)
{
    return find_field(record, "SG3D") < record->count ? "SG3D" : "SG2D";
}

void join_lists(struct chart *chart)
{
    for (size_t i = 1; i < chart->list.count; i++) {
        struct chart_record *record = &chart->list.record[i];
        for (size_t at = record->count; at-- > 1;) {
            const struct buffer *more = &record->field[at].content;
            if (!has_tag(&record->field[at], record->field[at - 1].tag))
                continue;
            buffer_put(&record->field[at - 1].content, more->bytes, more->length);
            remove_field(record, at);
        }
    }
}

size_t list_length(const struct chart_record *record, const char *tag)
{
    size_t at = find_field(record, tag);
    return at < record->count ? count_entries(&record->field[at]) : 0;
}

/* Of one entry or more: from the first byte of entry `index` on. */
static struct place entries_place(const struct chart_field *field, size_t index, size_t count)
{
    struct place first = entry_place(field, index - 1), last = entry_place(field, index + count - 2);
    return (struct place){first.start, last.start + last.length - first.start};
}

void remove_entries(struct chart_record *record, const char *tag, size_t index, size_t count)
{
    size_t at = find_field(record, tag);
    struct buffer *content = &record->field[at].content;
    struct place place = entries_place(&record->field[at], index, count);
    buffer_remove(content, place.start, place.length);
    if (content->length == 0)
        remove_field(record, at);
}

void insert_entries(struct chart_record *record, const char *tag, size_t index, const struct buffer *entries)
{
    size_t at = place_of_tag(record, tag);
    if (at == record->count || !has_tag(&record->field[at], tag))
        insert_field(record, at, tag);
    struct chart_field *field = &record->field[at];
    size_t place = index > count_entries(field) ? field->content.length : entry_place(field, index - 1).start;
    memcpy(buffer_open(&field->content, place, entries->length), entries->bytes, entries->length);
}

void put_control(struct chart_record *record, const char *tag, struct control control)
{
    struct buffer *content = &add_field(record, tag)->content;
    put_number(content, 1, control.instruction);
    put_number(content, 2, control.index);
    put_number(content, 2, control.count);
}

void say_edit(struct chart_record *said, const char *control_tag, const char *tag, struct control control, const struct chart_record *after)
{
    put_control(said, control_tag, control);
    if (control.instruction == DELETE)
        return;
    const struct chart_field *field = &after->field[find_field(after, tag)];
    struct place place = entries_place(field, control.index, control.count);
    buffer_put(&add_field(said, tag)->content, field->content.bytes + place.start, place.length);
}

void put_odd_entries(struct buffer *entries, const char *tag, size_t count, struct random *random)
{
    const struct tag_row *row = row_of_tag(tag);
    for (; count > 0; count--) {
        if (memcmp(tag, "FFPT", 4) == 0) {
            put_number(entries, 8, random_next(random));
            put_number(entries, 1, random_between(random, 2, 3));
            put_value_text(entries, false, false, random);
            continue;
        }
        for (size_t i = 0; i < row->count; i++)
            for (unsigned width = format_width(row->subfield[i].format); width > 0; width--)
                *buffer_more(entries, 1) = random_byte(random);
    }
}

/* ---- the header */

static const char *any_date(struct random *random)
{
    static const char *const dates[] = {"20240229", "20231231", "00010101", "20000229", "99991231", "19990430", "00040229", "18000228"};
    return dates[random_below(random, sizeof dates / sizeof dates[0])];
}

struct numbering any_numbering(struct random *random)
{
    struct numbering numbering = {.edition = any_number(1, 9999, random), .number = any_number(1, 999, random)};
    memcpy(numbering.date, any_date(random), sizeof numbering.date);
    return numbering;
}

static void set_date(struct chart_field *dsid, const char *label, const char *date)
{
    memcpy(dsid->content.bytes + subfield_place(dsid, 0, label).start, date, 8);
}

struct chart start_update(const struct chart *cell, const struct numbering *numbering, struct random *random)
{
    struct chart update = {.update = true};
    struct scene scene = {.random = random};
    const struct chart_record *header = &cell->list.record[1];
    char extension[8];
    struct data_set set = {.edition = "1", .number = "1", .update = true, .plain = random_one_in(random, 2)};
    memcpy(set.name, header->field[1].content.bytes + subfield_place(&header->field[1], 0, "DSNM").start, 9);
    snprintf(extension, sizeof extension, "%03u", (unsigned)numbering->number % 1000);
    memcpy(set.name + 9, extension, 4);
    add_record(&update.list);
    struct chart_record *record = new_record(&update.list, &scene);
    put_data_set(record, &set, random);
    spell(&record->field[1], "EDTN", numbering->edition, 4, random);
    spell(&record->field[1], "UPDN", numbering->number, 3, random);
    set_date(&record->field[1], "ISDT", numbering->date);
    put_structure(record, header->field[2].content.bytes[1], header->field[2].content.bytes[2]);
    /* an update's counts are free */
    for (size_t i = 0; i < 8 && !set.plain; i++)
        set_number(record->field[2].content.bytes + 3 + 4 * i, 4, random_next(random));
    return update;
}

void number_after(struct chart *chart, const struct numbering *numbering)
{
    struct chart_field *dsid = &chart->list.record[1].field[1];
    char number[8];
    int length = snprintf(number, sizeof number, "%u", (unsigned)numbering->number);
    replace_bytes(&dsid->content, subfield_place(dsid, 0, "UPDN"), number, (size_t)length);
    set_date(dsid, "UADT", numbering->date);
    set_date(dsid, "ISDT", numbering->date);
}

void number_before(struct chart *chart, const struct numbering *numbering, struct random *random)
{
    struct chart_field *dsid = &chart->list.record[1].field[1];
    spell(dsid, "EDTN", numbering->edition, 4, random);
    spell(dsid, "UPDN", numbering->number - 1, 3, random);
    set_date(dsid, "UADT", any_date(random));
    set_date(dsid, "ISDT", any_date(random));
}
