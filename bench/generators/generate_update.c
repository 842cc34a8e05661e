/* Believable updates of a given cell: inserts, deletes and modifies, with controls before the lists that they act on. */
#include "generate_scene.h"

#include <stdio.h>
#include <string.h>

enum { UNIT_END = 0x1F, REMOVED = 0x7F, INSERT = 1, DELETE = 2, MODIFY = 3, RVER_OF_VECTOR = 5, RVER_OF_FEATURE = 9 };

struct making {
    const struct chart *cell;
    struct chart *update;
    struct random *random;
    struct scene scene; /* only for its style and levels */
    uint32_t next_id;
};

static bool is_vector(const struct chart_record *record)
{
    return has_tag(&record->field[1], "VRID");
}

/* Makes the first attribute of the list, which is the record's last field, one to be removed. */
static void mark_removed(struct chart_record *record)
{
    struct chart_field *field = &record->field[record->count - 1];
    uint8_t mark = REMOVED;
    replace_bytes(&field->content, subfield_place(field, 0, "ATVL"), &mark, 1);
}

static void put_changed_attributes(struct making *making, struct chart_record *record, const char *tag, bool high)
{
    if (!random_one_in(making->random, 3))
        return;
    put_attributes(record, tag, random_between(making->random, 1, 3), high, making->scene.style.plain, making->random);
    if (random_one_in(making->random, 3))
        mark_removed(record);
}

/* Entries of the held list come again, at an index where they might: what a reader sees is the same as for others. */
static void put_entries(struct making *making, struct chart_record *record, const struct chart_field *held, uint32_t count)
{
    struct chart_field *field = insert_field(record, record->count, NULL);
    size_t entries = count_entries(held);
    memcpy(field->tag, held->tag, sizeof field->tag);
    for (; count > 0; count--) {
        struct place place = entry_place(held, random_below(making->random, (uint32_t)entries));
        buffer_put(&field->content, held->content.bytes + place.start, place.length);
    }
}

static void put_edit(struct making *making, struct chart_record *record, const struct chart_record *held, const char *control,
                     const char *tag)
{
    size_t at = find_field(held, tag);
    if (at == held->count || random_one_in(making->random, 2))
        return;
    uint32_t instruction = random_between(making->random, INSERT, MODIFY), count = random_between(making->random, 1, 3);
    if (!random_one_in(making->random, 8)) {
        struct buffer *content = &add_field(record, control)->content;
        put_number(content, 1, instruction);
        put_number(content, 2, random_between(making->random, 1, (uint32_t)count_entries(&held->field[at])));
        put_number(content, 2, count);
    }
    if (instruction != DELETE)
        put_entries(making, record, &held->field[at], count);
}

static void put_edits(struct making *making, struct chart_record *record, const struct chart_record *held)
{
    if (is_vector(held)) {
        put_changed_attributes(making, record, "ATTV", false);
        put_edit(making, record, held, "VRPC", "VRPT");
        bool soundings = find_field(held, "SG3D") < held->count;
        put_edit(making, record, held, "SGCC", soundings ? "SG3D" : "SG2D");
    } else {
        put_changed_attributes(making, record, "ATTF", making->scene.high_attributes);
        put_changed_attributes(making, record, "NATF", making->scene.high_national);
        put_edit(making, record, held, "FFPC", "FFPT");
        put_edit(making, record, held, "FSPC", "FSPT");
    }
}

/* The identifier fields of a held record, with the version that follows. */
static struct chart_record *name_held(struct making *making, const struct chart_record *held, uint8_t instruction)
{
    struct chart_record *record = new_record(&making->update->list, &making->scene);
    size_t last = is_vector(held) ? 1 : 2;
    for (size_t i = 1; i <= last; i++) {
        struct chart_field *field = insert_field(record, record->count, NULL);
        memcpy(field->tag, held->field[i].tag, sizeof field->tag);
        buffer_put(&field->content, held->field[i].content.bytes, held->field[i].content.length);
    }
    uint8_t *version = record->field[1].content.bytes + (is_vector(held) ? RVER_OF_VECTOR : RVER_OF_FEATURE);
    uint64_t next = get_number(version, 2) + 1;
    set_number(version, 2, next > 0xFFFF ? 0xFFFF : next);
    version[2] = instruction;
    return record;
}

static bool is_id_free(const struct chart *chart, uint32_t id)
{
    for (size_t i = 3; i < chart->list.count; i++)
        if (get_number(chart->list.record[i].field[1].content.bytes + 1, 4) == id)
            return false;
    return true;
}

/* A held record's fields under a name that the cell hasn't. High bytes of its texts may not stand in an update of another level. */
static void insert_like(struct making *making, const struct chart_record *held)
{
    do
        making->next_id = making->next_id % UINT32_C(4294967294) + 1;
    while (!is_id_free(making->cell, making->next_id));
    struct chart_record copy = copy_record(held);
    for (size_t at = copy.count; at-- > 0;)
        if (has_tag(&copy.field[at], "ATTF") || has_tag(&copy.field[at], "NATF"))
            remove_field(&copy, at);
    uint8_t *identifier = copy.field[1].content.bytes, *version = identifier + (is_vector(held) ? RVER_OF_VECTOR : RVER_OF_FEATURE);
    set_number(identifier + 1, 4, making->next_id);
    set_number(version, 2, 1);
    version[2] = INSERT;
    *add_record(&making->update->list) = copy;
}

static void put_update_header(struct making *making)
{
    static const char *const numbers[] = {"1", "07", "012", "999", "100", "9"};
    static const char *const extensions[] = {"001", "007", "012", "999", "100", "009"};
    const uint8_t *name = making->cell->list.record[1].field[1].content.bytes + 7;
    uint32_t which = random_below(making->random, 6);
    struct data_set set = {.edition = "1", .number = numbers[which], .update = true, .plain = making->scene.style.plain};
    memcpy(set.name, name, 9);
    memcpy(set.name + 9, extensions[which], 4);
    struct chart_record *record = new_record(&making->update->list, &making->scene);
    put_data_set(record, &set, making->random);
    put_structure(record, making->scene.high_attributes, making->scene.high_national);
    /* an update's counts are free */
    if (random_one_in(making->random, 2))
        set_number(record->field[2].content.bytes + 7, 4, random_next(making->random) & 0xFFFFFFFF);
}

struct chart make_update(const struct chart *cell, struct random *random)
{
    struct chart update = {.update = true};
    struct making making = {.cell = cell, .update = &update, .random = random, .next_id = random_below(random, 1u << 31)};
    making.scene = (struct scene){.random = random, .high_attributes = random_one_in(random, 2), .high_national = random_one_in(random, 2)};
    making.scene.style.plain = random_one_in(random, 3);
    add_record(&update.list);
    put_update_header(&making);
    for (size_t i = 3; i < cell->list.count; i++) {
        const struct chart_record *held = &cell->list.record[i];
        switch (random_below(random, 6)) {
        case 0:
            insert_like(&making, held);
            break;
        case 1:
            name_held(&making, held, DELETE);
            break;
        case 2:
            put_edits(&making, name_held(&making, held, MODIFY), held);
            break;
        default:
            break;
        }
    }
    return update;
}
