/* Pairs from their result: what each record of it was before, and what the update must say so that it becomes what it is. */
#include "generate_pair.h"

#include "generate_scene.h"

#include <stdlib.h>
#include <string.h>

enum { LABELS = 65536, LAST_VERSION = 65535 };

/* ---- lists with a control */

/* At the front, at the end, or anywhere between. */
static uint32_t any_index(uint32_t last, struct random *random)
{
    return random_one_in(random, 3) ? 1 : random_one_in(random, 2) ? last : random_between(random, 1, last);
}

static struct control any_control(uint32_t length, struct random *random)
{
    struct control control = {.instruction = length == 0 ? DELETE : random_between(random, INSERT, MODIFY)};
    if (control.instruction == DELETE) {
        control.count = random_one_in(random, 16) ? random_between(random, 200, 400) : random_between(random, 1, 3);
        control.index = any_index(length + 1, random);
    } else {
        control.count = random_one_in(random, 4) ? length : random_between(random, 1, length < 3 ? length : 3);
        control.index = any_index(length - control.count + 1, random);
    }
    return control;
}

/* `held` is the record as it is in the result, and then as it was before. */
static void list_back(struct chart_record *held, struct chart_record *said, const char *control_tag, const char *tag, struct random *random)
{
    struct control control = any_control((uint32_t)list_length(held, tag), random);
    struct buffer odd = {0};
    say_edit(said, control_tag, tag, control, held);
    if (control.instruction != DELETE)
        remove_entries(held, tag, control.index, control.count);
    if (control.instruction != INSERT) {
        put_odd_entries(&odd, tag, control.count, random);
        insert_entries(held, tag, control.index, &odd);
    }
    buffer_free(&odd);
}

/* Where there are none after a delete, there may have been soundings as well as pairs. */
static void coordinates_back(struct chart_record *held, struct chart_record *said, struct random *random)
{
    const char *tag = coordinates_of(held);
    if (list_length(held, tag) == 0 && random_one_in(random, 2))
        tag = "SG3D";
    list_back(held, said, "SGCC", tag, random);
}

/* ---- attributes */

/* What is known of a list while it is taken apart. */
struct attributes_back {
    struct random *random;
    bool high;
    bool *used;              /* for each label whether it is in the result's list or was before */
    struct buffer before;
    struct chart_field free; /* what the update says of attributes that were held, in any order */
    struct chart_field last; /* what it appends: their order matters */
};

static void put_entry(struct buffer *to, const struct chart_field *field, size_t entry)
{
    struct place place = entry_place(field, entry);
    buffer_put(to, field->content.bytes + place.start, place.length);
}

/* An attribute that the update removes. */
static void put_removed(struct attributes_back *back)
{
    uint32_t label;
    do
        label = random_below(back->random, LABELS);
    while (back->used[label]);
    back->used[label] = true;
    put_number(&back->before, 2, label);
    put_value_text(&back->before, back->high, false, back->random);
    put_number(&back->free.content, 2, label);
    put_text(&back->free.content, "\x7F");
}

static void attribute_back(struct attributes_back *back, const struct chart_field *after, size_t entry, bool appended)
{
    if (random_one_in(back->random, 4))
        put_removed(back);
    if (appended) {
        put_entry(&back->last.content, after, entry);
    } else if (random_one_in(back->random, 2)) {
        put_entry(&back->before, after, entry);
    } else {
        buffer_put(&back->before, after->content.bytes + entry_place(after, entry).start, 2);
        put_value_text(&back->before, back->high, false, back->random);
        put_entry(&back->free.content, after, entry);
    }
}

/* The two rows woven into one; of the first a random one is next each time. */
static void weave(struct attributes_back *back, struct buffer *said)
{
    size_t next = 0, last = count_entries(&back->last);
    for (size_t left; (left = count_entries(&back->free)) > 0 || next < last;) {
        if (left == 0 || (next < last && random_one_in(back->random, 2))) {
            put_entry(said, &back->last, next++);
            continue;
        }
        struct place place = entry_place(&back->free, random_below(back->random, (uint32_t)left));
        buffer_put(said, back->free.content.bytes + place.start, place.length);
        buffer_remove(&back->free.content, place.start, place.length);
    }
}

static void take_apart(struct attributes_back *back, const struct chart_field *after)
{
    size_t count = count_entries(after), appended = random_one_in(back->random, 4) ? count : random_below(back->random, (uint32_t)count + 1);
    for (size_t i = 0; i < count; i++)
        back->used[get_number(after->content.bytes + entry_place(after, i).start, 2)] = true;
    for (size_t i = 0; i < count; i++)
        attribute_back(back, after, i, i + appended >= count);
    if (random_one_in(back->random, 3))
        put_removed(back);
}

static void attributes_back(struct chart_record *held, struct chart_record *said, const char *tag, bool high, struct random *random)
{
    struct attributes_back back = {.random = random, .high = high, .free = {.tag = "ATTF"}, .last = {.tag = "ATTF"}};
    struct chart_field none = {.tag = "ATTF"}, *after = &none;
    size_t at = find_field(held, tag);
    back.used = calloc(LABELS, sizeof back.used[0]);
    if (at < held->count)
        after = &held->field[at];
    take_apart(&back, after);
    if (back.free.content.length + back.last.content.length > 0)
        weave(&back, &add_field(said, tag)->content);
    if (at < held->count)
        remove_field(held, at);
    if (back.before.length > 0)
        insert_field(held, place_of_tag(held, tag), tag)->content = back.before;
    free(back.used);
    buffer_free(&back.free.content);
    buffer_free(&back.last.content);
}

/* ---- a modify */

static void record_back(struct chart_record *held, struct chart_record *said, const uint8_t *levels, struct random *random)
{
    if (is_vector(held)) {
        if (random_one_in(random, 2))
            attributes_back(held, said, "ATTV", false, random);
        if (random_one_in(random, 3))
            list_back(held, said, "VRPC", "VRPT", random);
        if (random_one_in(random, 2))
            coordinates_back(held, said, random);
        return;
    }
    if (random_one_in(random, 2))
        attributes_back(held, said, "ATTF", levels[0] == 1, random);
    if (random_one_in(random, 3))
        attributes_back(held, said, "NATF", levels[1] == 1, random);
    if (random_one_in(random, 2))
        list_back(held, said, "FFPC", "FFPT", random);
    if (random_one_in(random, 2))
        list_back(held, said, "FSPC", "FSPT", random);
}

/* ---- pairs */

static uint64_t any_held_version(struct random *random)
{
    static const uint16_t odd[] = {LAST_VERSION - 1, 255, 256, 32767, 32768};
    return random_one_in(random, 6) ? odd[random_below(random, sizeof odd / sizeof odd[0])] : random_between(random, 1, 4);
}

static void item_back(struct chart_pair *pair, struct chart_record *item, struct random *random)
{
    uint64_t version = any_held_version(random);
    struct chart_record copy;
    switch (random_below(random, 6)) {
    case 0:
        set_version(item, 1);
        copy = copy_record(item);
        *add_record(&pair->update.list) = copy;
        break;
    case 1:
    case 2:
        set_version(item, version + 1);
        copy = copy_record(item);
        set_version(&copy, version);
        record_back(&copy, say_change(&pair->update, item, version + 1, MODIFY, random), pair->cell.list.record[1].field[2].content.bytes + 1,
                    random);
        *add_record(&pair->cell.list) = copy;
        break;
    default:
        copy = copy_record(item);
        *add_record(&pair->cell.list) = copy;
    }
}

/* A record of the cell that the update deletes; takes it over. */
static void add_deleted(struct chart_pair *pair, struct chart_record record, struct random *random)
{
    uint64_t version = any_held_version(random);
    set_version(&record, version);
    *add_record(&pair->cell.list) = record;
    say_change(&pair->update, &record, version + 1, DELETE, random);
}

/* One like another, under a name that is free. */
static void add_any_deleted(struct chart_pair *pair, struct random *random)
{
    uint32_t items = (uint32_t)pair->result.list.count - FIRST_CELL_ITEM;
    struct chart_record record = copy_record(&pair->result.list.record[FIRST_CELL_ITEM + random_below(random, items)]);
    set_number(record.field[1].content.bytes + 1, 4, free_id(pair, name_of_record(&record)[0], random));
    add_deleted(pair, record, random);
}

struct chart_pair pair_back(struct chart *result, const struct record_list *gone, struct random *random)
{
    struct chart_pair pair = {.result = *result};
    struct numbering numbering = any_numbering(random);
    for (size_t i = 0; i < FIRST_CELL_ITEM; i++)
        *add_record(&pair.cell.list) = copy_record(&pair.result.list.record[i]);
    spell(&pair.result.list.record[1].field[1], "EDTN", numbering.edition, 4, random);
    number_after(&pair.result, &numbering);
    number_before(&pair.cell, &numbering, random);
    pair.update = start_update(&pair.cell, &numbering, random);
    for (size_t i = FIRST_CELL_ITEM; i < pair.result.list.count; i++)
        item_back(&pair, &pair.result.list.record[i], random);
    for (size_t i = 0; gone != NULL && i < gone->count; i++)
        add_deleted(&pair, copy_record(&gone->record[i]), random);
    for (uint32_t more = pair.result.list.count > FIRST_CELL_ITEM ? random_below(random, 4) : 0; more > 0; more--)
        add_any_deleted(&pair, random);
    arrange(&pair.cell, random);
    arrange(&pair.update, random);
    count_records(&pair.cell);
    *result = (struct chart){0};
    return pair;
}
