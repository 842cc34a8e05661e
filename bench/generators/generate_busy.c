/* Pairs of up to 5 MB each for Apply: an ordinary cell with an update of 500 records, and such as put much of one kind of work into their bytes. The result
   is made beside them, record by record. */
#include "generate_apply.h"

#include <stdlib.h>
#include <string.h>

enum { MANY = 60000, LONG_LISTS = 34, ENTRIES = 12000, FIELDS = 300, RELATIONS = 8900, LABEL_LISTS = 52, APART_LISTS = 50, APART = 4900, APART_LABELS = 6000,
       FEATURE = 100 };

/* ---- parts */

/* A cell at 0 without vectors and features, its first update, and the result. */
static struct chart_pair bare_pair(struct random *random)
{
    const struct numbering first = {.edition = 1, .number = 1, .date = "20240229"};
    struct chart_pair pair = {.cell = bare_cell(random)};
    pair.update = start_update(&pair.cell, &first, random);
    pair.result = copy_chart(&pair.cell);
    number_after(&pair.result, &first);
    return pair;
}

static void put_node(struct chart *chart, uint8_t class, uint32_t id)
{
    struct buffer *content = &add_field(put_vector(chart, class, id), "SG2D")->content;
    put_number(content, 4, 530000000 + id);
    put_number(content, 4, 80000000 + id);
}

/* The record goes to the result too, and the update says that it is modified. */
static struct chart_record *modify_last(struct chart_pair *pair, struct random *random)
{
    const struct chart_record *held = &pair->cell.list.record[pair->cell.list.count - 1];
    struct chart_record *result = add_record(&pair->result.list);
    *result = copy_record(held);
    set_version(result, 2);
    return say_change(&pair->update, held, 2, MODIFY, random);
}

static struct chart_record *last_of(struct chart *chart)
{
    return &chart->list.record[chart->list.count - 1];
}

/* ---- records that come, go and change */

static struct chart_pair make_ordinary_step(struct random *random)
{
    struct step_style style = {.actions = 420};
    struct chart_pair pair = {.result = make_ordinary(random)};
    pair.cell = copy_chart(&pair.result);
    pair.update = next_update(&pair.result, &style, random);
    return pair;
}

static struct chart_pair make_inserts(struct random *random)
{
    struct chart_pair pair = bare_pair(random);
    put_node(&pair.cell, 110, MANY / 2);
    put_node(&pair.result, 110, MANY / 2);
    for (uint32_t i = 0; i < MANY; i++) {
        uint32_t id = UINT32_C(4000000000) - i * 7;
        put_node(&pair.update, i % 2 == 0 ? 110 : 120, id);
        put_node(&pair.result, i % 2 == 0 ? 110 : 120, id);
    }
    arrange(&pair.update, random);
    return pair;
}

static struct chart_pair make_deletes(struct random *random)
{
    struct chart_pair pair = bare_pair(random);
    for (uint32_t i = 0; i < MANY; i++) {
        put_node(&pair.cell, 120, MANY - i);
        say_change(&pair.update, last_of(&pair.cell), 2, DELETE, random);
    }
    return pair;
}

/* Nodes move, edges tell their ends the other way round and bend elsewhere, features get another value or say a boundary again. */
static void change_each(struct chart_record *result, struct chart_record *said)
{
    bool edge = name_of_record(result)[0] == 130;
    if (edge) {
        struct buffer *ends = &result->field[find_field(result, "VRPT")].content;
        uint8_t first[9];
        memcpy(first, ends->bytes, 9);
        memmove(ends->bytes, ends->bytes + 9, 9);
        memcpy(ends->bytes + 9, first, 9);
        say_edit(said, "VRPC", "VRPT", (struct control){MODIFY, 1, 2}, result);
    }
    if (name_of_record(result)[0] == FEATURE) {
        size_t at = find_field(result, "ATTF");
        if (at < result->count) {
            struct chart_field *field = &result->field[at];
            replace_bytes(&field->content, subfield_place(field, 0, "ATVL"), "7", 1);
            struct place place = entry_place(field, 0);
            buffer_put(&add_field(said, "ATTF")->content, field->content.bytes + place.start, place.length);
        } else if (list_length(result, "FSPT") > 0) {
            say_edit(said, "FSPC", "FSPT", (struct control){MODIFY, 1, 1}, result);
        }
        return;
    }
    const char *tag = coordinates_of(result);
    if (list_length(result, tag) > 0) {
        result->field[find_field(result, tag)].content.bytes[0] ^= 1;
        say_edit(said, "SGCC", tag, (struct control){MODIFY, 1, 1}, result);
    }
}

static struct chart_pair make_touched(struct random *random)
{
    const struct numbering first = {.edition = 1, .number = 1, .date = "20240229"};
    struct chart_pair pair = {.cell = make_ordinary(random)};
    pair.update = start_update(&pair.cell, &first, random);
    pair.result = copy_chart(&pair.cell);
    number_after(&pair.result, &first);
    for (size_t i = FIRST_CELL_ITEM; i < pair.result.list.count; i++) {
        struct chart_record *result = &pair.result.list.record[i];
        uint64_t version = version_of_record(result) + 1;
        set_version(result, version);
        change_each(result, say_change(&pair.update, result, version, MODIFY, random));
    }
    arrange(&pair.update, random);
    return pair;
}

/* ---- attributes */

/* `count` attributes of that value, labels scattered: 7,919 and 65,536 have no common factor. */
static void put_labels(struct chart_record *record, uint32_t from, uint32_t count, bool backwards, const char *value)
{
    size_t at = find_field(record, "ATTF");
    struct buffer *content = at < record->count ? &record->field[at].content : &add_field(record, "ATTF")->content;
    for (uint32_t i = 0; i < count; i++) {
        uint32_t label = from + (backwards ? count - 1 - i : i);
        put_number(content, 2, label * 7919 & 0xFFFF);
        put_text(content, value);
    }
}

static struct chart_pair make_replaced(struct random *random)
{
    struct chart_pair pair = bare_pair(random);
    for (uint32_t id = 1; id <= LABEL_LISTS; id++) {
        put_labels(put_feature(&pair.cell, id, 255, 400, id), 0, 33000, false, "");
        put_labels(modify_last(&pair, random), 0, 33000, true, "");
    }
    return pair;
}

static struct chart_pair make_revalued(struct random *random)
{
    struct chart_pair pair = bare_pair(random);
    for (uint32_t id = 1; id <= LABEL_LISTS; id++) {
        put_labels(put_feature(&pair.cell, id, 255, 400, id), 0, 24900, false, "1");
        put_labels(modify_last(&pair, random), 0, 24900, true, "2");
        last_of(&pair.result)->field[3].content.length = 0;
        put_labels(last_of(&pair.result), 0, 24900, false, "2");
    }
    return pair;
}

static struct chart_pair make_appended(struct random *random)
{
    struct chart_pair pair = bare_pair(random);
    for (uint32_t id = 1; id <= LABEL_LISTS; id++) {
        put_labels(put_feature(&pair.cell, id, 255, 400, id), 0, 16500, false, "");
        put_labels(modify_last(&pair, random), 16500, 16500, true, "");
        put_labels(last_of(&pair.result), 16500, 16500, true, "");
    }
    return pair;
}

/* As many as there are labels left: records that no held form takes. */
static struct chart_pair make_overlong(struct random *random)
{
    struct chart_pair pair = bare_pair(random);
    for (uint32_t id = 1; id <= LABEL_LISTS; id++) {
        put_labels(put_feature(&pair.cell, id, 255, 400, id), 0, 33000, false, "");
        put_labels(modify_last(&pair, random), 33000, 32536, true, "");
    }
    return pair;
}

static struct chart_pair make_removed(struct random *random)
{
    struct chart_pair pair = bare_pair(random);
    for (uint32_t id = 1; id <= LABEL_LISTS; id++) {
        put_labels(put_feature(&pair.cell, id, 255, 400, id), 0, 24800, false, "");
        put_labels(modify_last(&pair, random), 0, 24800, true, "\x7F");
        remove_field(last_of(&pair.result), 3);
    }
    return pair;
}

/* The last of all finds nothing. */
static struct chart_pair make_not_removed(struct random *random)
{
    struct chart_pair pair = make_removed(random);
    struct buffer *content = &last_of(&pair.update)->field[3].content;
    set_number(content->bytes + content->length - 4, 2, 30000 * 7919 & 0xFFFF);
    return pair;
}

/* ---- long lists in many fields, edited at one end */

static void put_ends(struct chart *chart, uint32_t id)
{
    struct buffer *content = &add_field(put_vector(chart, 130, id), "VRPT")->content;
    for (uint8_t topology = 1; topology <= 2; topology++) {
        put_number(content, 1, 120);
        put_number(content, 4, 1);
        put_number(content, 2, 0xFFFF);
        put_number(content, 1, topology);
        put_number(content, 1, 0xFF);
    }
}

static void put_boundary(struct buffer *content, uint32_t edge)
{
    put_number(content, 1, 130);
    put_number(content, 4, edge);
    put_number(content, 3, 0x01FF01);
}

/* The list is cut into so many fields, all but the last alike. */
static void cut_list(struct chart_record *record, const char *tag, size_t entry, size_t fields)
{
    size_t first = find_field(record, tag), whole = record->field[first].content.length, size = whole / entry / fields * entry;
    for (size_t i = 1; i < fields; i++) {
        struct chart_field *field = insert_field(record, first + i, tag);
        size_t end = i + 1 == fields ? whole : (i + 1) * size;
        buffer_put(&field->content, record->field[first].content.bytes + i * size, end - i * size);
    }
    record->field[first].content.length = size;
}

/* Loops at one node, and lines along them. */
static struct chart_pair make_lines(struct control control, struct random *random)
{
    struct chart_pair pair = bare_pair(random);
    put_node(&pair.cell, 120, 1);
    for (uint32_t id = 1; id <= 100; id++)
        put_ends(&pair.cell, id);
    for (size_t i = FIRST_CELL_ITEM; i < pair.cell.list.count; i++)
        *add_record(&pair.result.list) = copy_record(&pair.cell.list.record[i]);
    for (uint32_t id = 1; id <= LONG_LISTS; id++) {
        struct buffer *content = &add_field(put_feature(&pair.cell, id, 2, 30, id), "FSPT")->content, entry = {0};
        for (uint32_t i = 0; i < ENTRIES; i++)
            put_boundary(content, 1 + i % 100);
        struct chart_record *said = modify_last(&pair, random);
        put_boundary(&entry, 7);
        if (control.instruction != INSERT)
            remove_entries(last_of(&pair.result), "FSPT", control.index, control.count);
        if (control.instruction != DELETE)
            insert_entries(last_of(&pair.result), "FSPT", control.index, &entry);
        say_edit(said, "FSPC", "FSPT", control, last_of(&pair.result));
        cut_list(last_of(&pair.cell), "FSPT", 8, FIELDS);
        buffer_free(&entry);
    }
    return pair;
}

static struct chart_pair make_front(struct random *random)
{
    return make_lines((struct control){INSERT, 1, 1}, random);
}

static struct chart_pair make_end(struct random *random)
{
    return make_lines((struct control){INSERT, ENTRIES + 1, 1}, random);
}

static struct chart_pair make_front_deleted(struct random *random)
{
    return make_lines((struct control){DELETE, 1, ENTRIES - 1}, random);
}

static void put_relation(struct buffer *content, uint64_t object)
{
    put_number(content, 8, object);
    put_number(content, 1, 2);
    put_text(content, "");
}

/* Where an entry stands must be found from the front on, since each ends in a text. */
static struct chart_pair make_relations(struct random *random)
{
    struct chart_pair pair = bare_pair(random);
    for (uint32_t id = 1; id <= LONG_LISTS; id++) {
        struct buffer *content = &add_field(put_feature(&pair.cell, id, 255, 400, id), "FFPT")->content, entry = {0};
        for (uint32_t i = 0; i < RELATIONS; i++)
            put_relation(content, 1 + i % LONG_LISTS);
        struct chart_record *said = modify_last(&pair, random);
        put_relation(&entry, 1);
        remove_entries(last_of(&pair.result), "FFPT", RELATIONS, 1);
        insert_entries(last_of(&pair.result), "FFPT", RELATIONS, &entry);
        say_edit(said, "FFPC", "FFPT", (struct control){MODIFY, RELATIONS, 1}, last_of(&pair.result));
        cut_list(last_of(&pair.cell), "FFPT", 10, FIELDS);
        buffer_free(&entry);
    }
    return pair;
}

/* ---- as many fields as entries, in both files */

static void put_pairs(struct buffer *content, uint32_t from, uint32_t count)
{
    for (uint32_t i = from; i < from + count; i++) {
        put_number(content, 4, 530000000 + i);
        put_number(content, 4, 80000000 + i);
    }
}

/* Pairs come into the middle of an edge. */
static struct chart_pair make_apart(struct random *random)
{
    struct chart_pair pair = bare_pair(random);
    put_node(&pair.cell, 120, 1);
    put_node(&pair.result, 120, 1);
    for (uint32_t id = 1; id <= APART_LISTS; id++) {
        struct buffer pairs = {0};
        put_ends(&pair.cell, id);
        put_pairs(&add_field(last_of(&pair.cell), "SG2D")->content, 0, APART);
        struct chart_record *said = modify_last(&pair, random);
        put_pairs(&pairs, APART, APART);
        insert_entries(last_of(&pair.result), "SG2D", APART / 2, &pairs);
        say_edit(said, "SGCC", "SG2D", (struct control){INSERT, APART / 2, APART}, last_of(&pair.result));
        cut_list(last_of(&pair.cell), "SG2D", 8, APART);
        cut_list(said, "SG2D", 8, APART);
        buffer_free(&pairs);
    }
    return pair;
}

static struct chart_pair make_apart_labels(struct random *random)
{
    struct chart_pair pair = bare_pair(random);
    for (uint32_t id = 1; id <= APART_LISTS; id++) {
        put_labels(put_feature(&pair.cell, id, 255, 400, id), 0, APART_LABELS, false, "1");
        struct chart_record *said = modify_last(&pair, random);
        put_labels(said, APART_LABELS / 2, APART_LABELS, true, "2");
        struct chart_record *result = last_of(&pair.result);
        result->field[3].content.length = 0;
        put_labels(result, 0, APART_LABELS / 2, false, "1");
        put_labels(result, APART_LABELS / 2, APART_LABELS / 2, false, "2");
        put_labels(result, APART_LABELS, APART_LABELS / 2, true, "2");
        cut_list(last_of(&pair.cell), "ATTF", 4, APART_LABELS);
        cut_list(said, "ATTF", 4, APART_LABELS);
    }
    return pair;
}

/* ---- an update that comes to nothing at its last record */

static struct chart_pair make_last_held(struct random *random)
{
    struct chart_pair pair = make_inserts(random);
    struct chart_record *last = last_of(&pair.update);
    while (name_of_record(last)[0] != 110)
        last--;
    set_number(last->field[1].content.bytes + 1, 4, MANY / 2);
    /* that one and the last exchange places */
    struct chart_record kept = *last;
    *last = *last_of(&pair.update);
    *last_of(&pair.update) = kept;
    return pair;
}

/* ---- the table */

static const struct heavy {
    const char *name;
    struct chart_pair (*make)(struct random *random);
    uint32_t code; /* of the update's last record, or of the result's size, if not 0 */
} heavies[] = {
    {"ordinary: 28,000 records, 500 in the update", make_ordinary_step, 0},
    {"each of 28,000 records modified", make_touched, 0},
    {"60,000 inserts", make_inserts, 0},
    {"60,000 deletes", make_deletes, 0},
    {"52 lists of 33,000 attributes replaced", make_replaced, 0},
    {"52 lists of 24,900 attributes with other values", make_revalued, 0},
    {"52 lists of 16,500 attributes get 16,500 more", make_appended, 0},
    {"52 lists of 24,800 attributes removed", make_removed, 0},
    {"34 lists of 12,000 in 300 fields, one more in front", make_front, 0},
    {"34 lists of 12,000 in 300 fields, one more at the end", make_end, 0},
    {"34 lists of 12,000 in 300 fields, all but one deleted", make_front_deleted, 0},
    {"34 lists of 8,900 FFPT in 300 fields, the last modified", make_relations, 0},
    {"50 lists of 4,900 in as many fields, 4,900 more", make_apart, 0},
    {"50 lists of 6,000 attributes in as many fields", make_apart_labels, 0},
    {"52 lists of 33,000 attributes get 32,536 others", make_overlong, CODE_SIZE},
    {"60,000 inserts, the last of a held name", make_last_held, CODE_TARGET},
    {"52 lists of attributes, the last removal finds none", make_not_removed, CODE_EDIT},
};

size_t heavy_applies(void)
{
    return sizeof heavies / sizeof heavies[0];
}

const char *heavy_apply_name(size_t index)
{
    return heavies[index].name;
}

static struct buffer write_plain(struct chart *chart, struct random *random, size_t *records)
{
    struct draft draft = {0};
    write_large(chart, 0, &draft, random);
    *records += draft.count;
    free(draft.records);
    return draft.file;
}

struct apply_case heavy_apply_make(size_t index)
{
    const struct heavy *heavy = &heavies[index];
    struct random random = {index + 1};
    struct apply_case made = {.kind = heavy->name, .known = true};
    struct chart_pair pair = heavy->make(&random);
    if (heavy->code == CODE_DONE)
        made.held = held_of_chart(&pair.result);
    else if (heavy->code == CODE_SIZE)
        made.verdict = (struct answer){.code = CODE_SIZE, .file = 3};
    else
        made.verdict = (struct answer){.code = heavy->code, .file = 2, .record = (uint32_t)pair.update.list.count - 1};
    made.cell = write_plain(&pair.cell, &random, &made.records);
    made.update = write_plain(&pair.update, &random, &made.records);
    pair_free(&pair);
    return made;
}
