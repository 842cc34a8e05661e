/* The section "Updates" broken in a pair: codes 9 to 16. Every way here is wrong for certain, and leaves all that is looked at before it right. The record of
   such a fault is the update's. */
#include "generate_pair.h"

#include <stdio.h>
#include <stdlib.h>
#include <string.h>

enum { NAME = 5, LAST_VERSION = 65535, LABELS = 65536, CONTROLLED = sizeof controlled_lists / sizeof controlled_lists[0] };

static bool wrong(struct fault *fault, uint32_t code, size_t record)
{
    *fault = (struct fault){.code = code, .record = record, .spot = AT_RECORD};
    return true;
}

static struct chart_field *dsid_of(const struct chart *chart)
{
    return &chart->list.record[1].field[1];
}

static uint32_t number_of(const struct chart *chart, const char *label)
{
    const struct chart_field *dsid = dsid_of(chart);
    return (uint32_t)strtoul((const char *)dsid->content.bytes + subfield_place(dsid, 0, label).start, NULL, 10);
}

/* ---- 9: the first eight of DSNM. `way` says in which file */

static bool break_data_set_name(struct chart_pair *pair, size_t way, struct random *random, struct fault *fault)
{
    enum { INTU = 6, DIGIT = 2 };
    static const char bytes[] = "ABCDEFGHIJKLMNOPQRSTUVWXYZ0123456789";
    struct chart_field *dsid = dsid_of(way == 0 ? &pair->update : &pair->cell);
    uint8_t *name = dsid->content.bytes + subfield_place(dsid, 0, "DSNM").start;
    size_t at = random_below(random, 8);
    if (at == DIGIT) {
        dsid->content.bytes[INTU] = dsid->content.bytes[INTU] % 6 + 1;
        name[at] = (uint8_t)('0' + dsid->content.bytes[INTU]);
    } else {
        uint8_t old = name[at];
        while (name[at] == old)
            name[at] = (uint8_t)bytes[random_below(random, sizeof bytes - 1)];
    }
    return wrong(fault, CODE_OTHER, 1);
}

/* ---- 10: EDTN as a number */

static bool break_edition(struct chart_pair *pair, size_t way, struct random *random, struct fault *fault)
{
    uint32_t held = number_of(&pair->cell, "EDTN"), said = held;
    (void)way;
    while (said == held || said < 1 || said > 9999) {
        const uint32_t near[] = {held + 1, held - 1, held * 10, held / 10, held + 100, random_between(random, 1, 9999)};
        said = near[random_below(random, 6)];
    }
    spell(dsid_of(random_one_in(random, 2) ? &pair->cell : &pair->update), "EDTN", said, 4, random);
    return wrong(fault, CODE_EDITION, 1);
}

/* ---- 11: UPDN isn't the cell's plus 1 */

/* In the update DSNM says the number too. */
static void number_update(struct chart_pair *pair, uint32_t number, struct random *random)
{
    struct chart_field *dsid = dsid_of(&pair->update);
    char digits[8];
    snprintf(digits, sizeof digits, "%03u", (unsigned)number % 1000);
    memcpy(dsid->content.bytes + subfield_place(dsid, 0, "DSNM").start + 9, digits, 3);
    spell(dsid, "UPDN", number, 3, random);
}

enum { NUMBER_AGAIN, NUMBER_AFTER_NEXT, NUMBER_ANY, NUMBER_AFTER_999 };

static bool break_number(struct chart_pair *pair, size_t way, struct random *random, struct fault *fault)
{
    uint32_t held = number_of(&pair->cell, "UPDN"), said = held;
    if (way == NUMBER_AFTER_NEXT)
        said = held + 2;
    while (way == NUMBER_ANY && (said == held || said == held + 1))
        said = random_one_in(random, 2) ? held - 1 : random_between(random, 1, 999);
    if (way == NUMBER_AFTER_999) {
        spell(dsid_of(&pair->cell), "UPDN", 999, 3, random);
        said = random_one_in(random, 2) ? 999 : random_between(random, 1, 998);
    }
    if (said < 1 || said > 999)
        return false;
    number_update(pair, said, random);
    return wrong(fault, CODE_NUMBER, 1);
}

/* ---- 12: AALL (`way` 0) or NALL differs */

/* Labels are looked at too, which have no level: such a chart is passed over for nothing. */
static bool has_high_bytes(const struct chart *chart, const char *tag)
{
    for (size_t i = 1; i < chart->list.count; i++)
        for (size_t j = 2; j < chart->list.record[i].count; j++) {
            const struct chart_field *field = &chart->list.record[i].field[j];
            for (size_t at = 0; has_tag(field, tag) && at < field->content.length; at++)
                if (field->content.bytes[at] >= 0xA0)
                    return true;
        }
    return false;
}

static bool break_level(struct chart_pair *pair, size_t way, struct random *random, struct fault *fault)
{
    struct chart *changed = random_one_in(random, 2) ? &pair->cell : &pair->update;
    uint8_t *level = changed->list.record[1].field[2].content.bytes + 1 + way;
    if (*level == 1 && has_high_bytes(changed, way == 0 ? "ATTF" : "NATF"))
        return false;
    *level = 1 - *level;
    return wrong(fault, CODE_LEVEL, 1);
}

/* ---- several of 9 to 12: the first counts */

static bool break_two_heads(struct chart_pair *pair, size_t way, struct random *random, struct fault *fault)
{
    struct fault later;
    switch (way) {
    case 0:
        return break_number(pair, NUMBER_AFTER_NEXT, random, &later) && break_level(pair, random_below(random, 2), random, &later) &&
               wrong(fault, CODE_NUMBER, 1);
    case 1:
        return break_number(pair, NUMBER_AGAIN, random, &later) && break_edition(pair, 0, random, fault);
    default:
        return break_edition(pair, 0, random, &later) && break_data_set_name(pair, random_below(random, 2), random, fault);
    }
}

/* ---- records of the update */

static const struct chart_record *held_of(const struct chart_pair *pair, const struct chart_record *said)
{
    return find_item(&pair->cell, FIRST_CELL_ITEM, name_of_record(said));
}

enum { ANY_RECORD, VECTORS, FEATURES };

static bool is_wanted(const struct chart_record *record, uint8_t instruction, int kind)
{
    if (instruction != 0 && *instruction_of(record) != instruction)
        return false;
    return kind == ANY_RECORD || (kind == VECTORS) == is_vector(record);
}

/* A random one of that instruction, or of any where that is 0. */
static bool pick_said(const struct chart_pair *pair, uint8_t instruction, int kind, struct random *random, size_t *index)
{
    uint32_t met = 0;
    for (size_t i = FIRST_UPDATE_ITEM; i < pair->update.list.count; i++)
        if (is_wanted(&pair->update.list.record[i], instruction, kind) && random_one_in(random, ++met))
            *index = i;
    return met > 0;
}

static struct chart_record *said_at(const struct chart_pair *pair, size_t index)
{
    return &pair->update.list.record[index];
}

/* ---- 13 */

/* The name of a held record of the same class that the update leaves alone. */
static bool pick_unsaid(const struct chart_pair *pair, uint8_t class, struct random *random, uint8_t *name)
{
    uint32_t met = 0;
    for (size_t i = FIRST_CELL_ITEM; i < pair->cell.list.count; i++) {
        const uint8_t *held = name_of_record(&pair->cell.list.record[i]);
        if (held[0] == class && find_item(&pair->update, FIRST_UPDATE_ITEM, held) == NULL && random_one_in(random, ++met))
            memcpy(name, held, NAME);
    }
    return met > 0;
}

static bool break_insert_held(struct chart_pair *pair, size_t way, struct random *random, struct fault *fault)
{
    size_t index;
    if (way == 0) {
        if (!pick_said(pair, random_one_in(random, 2) ? MODIFY : DELETE, ANY_RECORD, random, &index))
            return false;
        *instruction_of(said_at(pair, index)) = INSERT;
        if (random_one_in(random, 2))
            set_version(said_at(pair, index), 1);
        return wrong(fault, CODE_TARGET, index);
    }
    if (!pick_said(pair, INSERT, ANY_RECORD, random, &index))
        return false;
    uint8_t *name = said_at(pair, index)->field[1].content.bytes;
    return pick_unsaid(pair, name[0], random, name) && wrong(fault, CODE_TARGET, index);
}

/* A name that nothing has: another id, or of a vector another class. */
static void spoil_name(const struct chart_pair *pair, struct chart_record *record, struct random *random)
{
    static const uint8_t classes[] = {110, 120, 130};
    uint8_t *name = record->field[1].content.bytes, other[NAME];
    memcpy(other, name, NAME);
    if (is_vector(record))
        other[0] = classes[random_below(random, 3)];
    if (held_of(pair, record) == NULL || random_one_in(random, 2) || find_item(&pair->cell, FIRST_CELL_ITEM, other) != NULL ||
        find_item(&pair->update, FIRST_UPDATE_ITEM, other) != NULL)
        set_number(other + 1, 4, free_id(pair, other[0], random));
    memcpy(name, other, NAME);
}

/* `way` is the instruction. */
static bool break_change_of_none(struct chart_pair *pair, size_t way, struct random *random, struct fault *fault)
{
    size_t index;
    if (random_one_in(random, 2) && pick_said(pair, INSERT, ANY_RECORD, random, &index)) {
        *instruction_of(said_at(pair, index)) = (uint8_t)way;
    } else {
        if (!pick_said(pair, (uint8_t)way, ANY_RECORD, random, &index))
            return false;
        spoil_name(pair, said_at(pair, index), random);
    }
    return wrong(fault, CODE_TARGET, index);
}

/* ---- 14: `way` is the instruction */

static bool break_version(struct chart_pair *pair, size_t way, struct random *random, struct fault *fault)
{
    size_t index;
    if (!pick_said(pair, (uint8_t)way, ANY_RECORD, random, &index))
        return false;
    uint64_t right = version_of_record(said_at(pair, index)), said = right;
    while (said == right || said < 1 || said > LAST_VERSION) {
        const uint64_t near[] = {right - 1, right + 1, right + 256, right - 256, LAST_VERSION, 1, 2, random_between(random, 1, LAST_VERSION)};
        said = near[random_below(random, 8)];
    }
    set_version(said_at(pair, index), said);
    return wrong(fault, CODE_VERSION, index);
}

/* The held one is the last that there is. */
static bool break_last_version(struct chart_pair *pair, size_t way, struct random *random, struct fault *fault)
{
    size_t index;
    if (!pick_said(pair, (uint8_t)way, ANY_RECORD, random, &index))
        return false;
    set_version(find_item(&pair->cell, FIRST_CELL_ITEM, name_of_record(said_at(pair, index))), LAST_VERSION);
    if (random_one_in(random, 2))
        set_version(said_at(pair, index), random_one_in(random, 2) ? LAST_VERSION : 1);
    return wrong(fault, CODE_VERSION, index);
}

/* ---- 15: a subfield of a modify or delete that isn't the held one */

static const struct identity {
    size_t field;
    const char *label;
} identities[] = {{1, "PRIM"}, {1, "GRUP"}, {1, "OBJL"}, {2, "AGEN"}, {2, "FIDN"}, {2, "FIDS"}};

static uint64_t other_identity(const char *label, uint64_t old, struct random *random)
{
    static const uint8_t primitives[] = {1, 2, 3, 255};
    if (strcmp(label, "PRIM") == 0)
        return primitives[random_below(random, 4)];
    if (strcmp(label, "OBJL") == 0)
        return random_between(random, 1, 401);
    return random_one_in(random, 2) ? old + 1 : old ^ UINT64_C(1) << random_below(random, strcmp(label, "FIDN") == 0 ? 32 : 8);
}

static bool break_identity(struct chart_pair *pair, size_t way, struct random *random, struct fault *fault)
{
    const struct identity *identity = &identities[way];
    size_t index;
    if (!pick_said(pair, random_one_in(random, 2) ? MODIFY : DELETE, FEATURES, random, &index))
        return false;
    struct chart_field *field = &said_at(pair, index)->field[identity->field];
    struct place place = subfield_place(field, 0, identity->label);
    uint64_t old = get_number(field->content.bytes + place.start, (unsigned)place.length);
    while (get_number(field->content.bytes + place.start, (unsigned)place.length) == old)
        set_number(field->content.bytes + place.start, (unsigned)place.length, other_identity(identity->label, old, random));
    return wrong(fault, CODE_IDENTITY, index);
}

/* ---- 16: inserts and deletes */

static const char *const vector_tags[] = {"ATTV", "VRPC", "VRPT", "SGCC", "SG2D", "SG3D"};
static const char *const feature_tags[] = {"ATTF", "NATF", "FFPC", "FFPT", "FSPC", "FSPT"};

static void put_attribute(struct chart_record *record, const char *tag, uint64_t label, const char *value)
{
    size_t at = place_of_tag(record, tag);
    if (at == record->count || !has_tag(&record->field[at], tag))
        insert_field(record, at, tag);
    struct buffer *content = &record->field[at].content;
    put_number(content, 2, label);
    put_text(content, value);
}

/* A field of that tag with something in it. */
static void put_any(struct chart_record *record, const char *tag, struct random *random)
{
    const struct tag_row *row = row_of_tag(tag);
    struct chart_record alone = {0};
    if (!row->repeats)
        put_control(&alone, tag, (struct control){random_between(random, 1, 3), 1, 1});
    else if (strcmp(row->subfield[0].label, "ATTL") == 0)
        put_attribute(&alone, tag, random_below(random, LABELS), random_one_in(random, 2) ? "1" : "");
    else
        put_odd_entries(&add_field(&alone, tag)->content, tag, random_between(random, 1, 2), random);
    *insert_field(record, place_of_tag(record, tag), NULL) = alone.field[0];
    free(alone.field);
}

/* What a delete must not have: any field beyond the identifiers. */
static bool break_delete(struct chart_pair *pair, size_t way, struct random *random, struct fault *fault)
{
    size_t index;
    if (!pick_said(pair, DELETE, way == 0 ? VECTORS : FEATURES, random, &index))
        return false;
    put_any(said_at(pair, index), (way == 0 ? vector_tags : feature_tags)[random_below(random, 6)], random);
    return wrong(fault, CODE_EDIT, index);
}

/* A control in an insert; `way` is the list. */
static bool break_insert_control(struct chart_pair *pair, size_t way, struct random *random, struct fault *fault)
{
    size_t index;
    if (!pick_said(pair, INSERT, controlled_lists[way].vector ? VECTORS : FEATURES, random, &index))
        return false;
    put_any(said_at(pair, index), controlled_lists[way].control, random);
    return wrong(fault, CODE_EDIT, index);
}

static bool has_label(const struct chart_record *record, const char *tag, uint64_t label)
{
    size_t at = find_field(record, tag), length = list_length(record, tag);
    for (size_t i = 0; i < length; i++)
        if (get_number(record->field[at].content.bytes + entry_place(&record->field[at], i).start, 2) == label)
            return true;
    return false;
}

static uint64_t free_label(const struct chart_record *record, const struct chart_record *other, const char *tag, struct random *random)
{
    uint64_t label;
    do
        label = random_below(random, LABELS);
    while (has_label(record, tag, label) || has_label(other, tag, label));
    return label;
}

static const char *const attribute_tags[] = {"ATTV", "ATTF", "NATF"};

/* 7F in an insert: of a label that it has, or of one more. */
static bool break_insert_removal(struct chart_pair *pair, size_t way, struct random *random, struct fault *fault)
{
    const char *tag = attribute_tags[way];
    size_t index;
    if (!pick_said(pair, INSERT, way == 0 ? VECTORS : FEATURES, random, &index))
        return false;
    struct chart_record *said = said_at(pair, index);
    size_t length = list_length(said, tag);
    if (length > 0 && random_one_in(random, 2)) {
        struct chart_field *field = &said->field[find_field(said, tag)];
        replace_bytes(&field->content, subfield_place(field, random_below(random, (uint32_t)length), "ATVL"), "\x7F", 1);
    } else {
        put_attribute(said, tag, free_label(said, said, tag, random), "\x7F");
    }
    return wrong(fault, CODE_EDIT, index);
}

/* ---- 16: removals that find nothing. `way` is the list */

/* Of a label that the other of a feature's two lists has, if that can be. */
static bool break_removal(struct chart_pair *pair, size_t way, struct random *random, struct fault *fault)
{
    const char *tag = attribute_tags[way], *other = attribute_tags[way == 1 ? 2 : 1];
    size_t index;
    if (!pick_said(pair, MODIFY, way == 0 ? VECTORS : FEATURES, random, &index))
        return false;
    struct chart_record *said = said_at(pair, index);
    const struct chart_record *held = held_of(pair, said);
    uint64_t label = free_label(held, said, tag, random);
    if (way > 0 && list_length(held, other) > 0) {
        uint64_t there = get_number(held->field[find_field(held, other)].content.bytes, 2);
        label = has_label(held, tag, there) || has_label(said, tag, there) ? label : there;
    }
    put_attribute(said, tag, label, "\x7F");
    return wrong(fault, CODE_EDIT, index);
}

/* ---- 16: controls and entries of a modify */

enum slip {
    NO_CONTROL,
    BAD_INSTRUCTION,
    INDEX_0,
    COUNT_0,
    INSERT_BEYOND,
    DELETE_BEYOND,
    MODIFY_BEYOND,
    TOO_FEW,
    TOO_MANY,
    NONE_BROUGHT,
    DELETE_BRINGS,
    OTHER_KIND,
};

struct bad_edit {
    struct control control;
    uint32_t brought; /* entries */
    bool possible;
};

/* An index and count, both of 1 or more, that reach beyond a list: by one, by two, or so far that the last entry's index passes 65,535. */
static void reach_beyond(struct control *control, uint32_t length, uint32_t most, struct random *random)
{
    const uint32_t lasts[] = {length + 1, length + 2, 65535, 65536, 65536 + (length < 2 ? length : 2)};
    uint32_t last = lasts[random_below(random, 5)], least = last > 65535 ? last - 65534 : 1;
    uint32_t greatest = last < most ? last : most;
    control->count = random_one_in(random, 2) ? least : random_between(random, least, greatest);
    control->index = last - control->count + 1;
}

/* An edit of an odd instruction or count, right but for that. */
static struct bad_edit odd_number(enum slip slip, uint32_t length, struct random *random)
{
    static const uint8_t instructions[] = {0, 4, 5, 16, 49, 128, 255};
    struct bad_edit edit = {{random_between(random, INSERT, MODIFY), 1, 1}, 1, true};
    if (length == 0)
        edit.control.instruction = INSERT;
    if (slip == BAD_INSTRUCTION)
        edit.control.instruction = instructions[random_below(random, sizeof instructions)];
    if (slip == INDEX_0)
        edit.control.index = 0;
    if (slip == COUNT_0)
        edit.control.count = 0;
    edit.brought = edit.control.instruction == DELETE || (slip == COUNT_0 && !random_one_in(random, 4)) ? 0 : 1;
    if (slip == BAD_INSTRUCTION && random_one_in(random, 2))
        edit.brought = 0;
    return edit;
}

static struct bad_edit beyond(enum slip slip, uint32_t length, struct random *random)
{
    const uint32_t indexes[] = {length + 2, length + 3, length + 256, 65535};
    struct bad_edit edit = {{INSERT, indexes[random_below(random, 4)], random_between(random, 1, 2)}, 0, true};
    if (slip != INSERT_BEYOND) {
        edit.control.instruction = slip == DELETE_BEYOND ? DELETE : MODIFY;
        reach_beyond(&edit.control, length, slip == DELETE_BEYOND ? 65535 : 4, random);
    }
    edit.brought = slip == DELETE_BEYOND ? 0 : edit.control.count;
    return edit;
}

/* Another number of entries than the count says; the control alone would be right. */
static struct bad_edit miscounted(enum slip slip, uint32_t length, struct random *random)
{
    struct bad_edit edit = {{random_one_in(random, 2) && length > 0 ? MODIFY : INSERT, 1, 1}, 0, true};
    uint32_t most = edit.control.instruction == INSERT || slip == TOO_MANY ? 3 : length < 3 ? length : 3;
    if (slip == DELETE_BRINGS) {
        edit.control.instruction = DELETE;
        edit.possible = length > 0;
        edit.brought = random_between(random, 1, 2);
        return edit;
    }
    edit.control.count = random_between(random, slip == TOO_FEW ? 2 : 1, most < 2 ? 2 : most);
    if (edit.control.instruction == MODIFY && edit.control.count > length)
        edit.control.instruction = INSERT;
    edit.brought = slip == TOO_FEW ? edit.control.count - 1 : slip == TOO_MANY ? edit.control.count + random_between(random, 1, 2) : 0;
    return edit;
}

static struct bad_edit any_bad_edit(enum slip slip, uint32_t length, struct random *random)
{
    switch (slip) {
    case NO_CONTROL:
        return (struct bad_edit){.brought = random_between(random, 1, 2), .possible = true};
    case BAD_INSTRUCTION:
    case INDEX_0:
    case COUNT_0:
        return odd_number(slip, length, random);
    case INSERT_BEYOND:
    case DELETE_BEYOND:
    case MODIFY_BEYOND:
        return beyond(slip, length, random);
    default:
        return miscounted(slip, length, random);
    }
}

static void remove_list(struct chart_record *record, const char *tag)
{
    for (size_t at; (at = find_field(record, tag)) < record->count;)
        remove_field(record, at);
}

/* In place of what the record said of that list. */
static void put_bad_edit(struct chart_record *said, const char *control, const char *tag, const struct bad_edit *edit, bool controlled,
                         struct random *random)
{
    struct chart_record alone = {0};
    remove_list(said, control);
    remove_list(said, tag);
    if (strcmp(control, "SGCC") == 0) {
        remove_list(said, "SG2D");
        remove_list(said, "SG3D");
    }
    if (controlled) {
        put_control(&alone, control, edit->control);
        *insert_field(said, place_of_tag(said, control), NULL) = alone.field[0];
        free(alone.field);
    }
    if (edit->brought > 0)
        put_odd_entries(&insert_field(said, place_of_tag(said, tag), tag)->content, tag, edit->brought, random);
}

static bool break_edit(struct chart_pair *pair, size_t way, struct random *random, struct fault *fault)
{
    const struct controlled *list = &controlled_lists[random_below(random, CONTROLLED)];
    size_t index;
    if (!pick_said(pair, MODIFY, list->vector ? VECTORS : FEATURES, random, &index))
        return false;
    const struct chart_record *held = held_of(pair, said_at(pair, index));
    const char *tag = strcmp(list->tag, "SG2D") == 0 ? coordinates_of(held) : list->tag;
    struct bad_edit edit = any_bad_edit((enum slip)way, (uint32_t)list_length(held, tag), random);
    if (!edit.possible)
        return false;
    put_bad_edit(said_at(pair, index), list->control, tag, &edit, way != NO_CONTROL, random);
    return wrong(fault, CODE_EDIT, index);
}

/* Pairs where soundings are held, or the other way round; `way` is the instruction. A modify replaces one, or all; a delete brings what it must not. */
static bool break_kind(struct chart_pair *pair, size_t way, struct random *random, struct fault *fault)
{
    size_t index;
    if (!pick_said(pair, MODIFY, VECTORS, random, &index))
        return false;
    const struct chart_record *held = held_of(pair, said_at(pair, index));
    const char *tag = coordinates_of(held), *other = strcmp(tag, "SG2D") == 0 ? "SG3D" : "SG2D";
    uint32_t length = (uint32_t)list_length(held, tag), count = way != INSERT && random_one_in(random, 2) ? length : 1;
    if (length == 0)
        return false;
    struct bad_edit edit = {{(uint32_t)way, 1, count}, count, true};
    put_bad_edit(said_at(pair, index), "SGCC", other, &edit, true, random);
    return wrong(fault, CODE_EDIT, index);
}

/* ---- two faults: the record that comes first counts, and in one record the lower code */

static bool break_two_records(struct chart_pair *pair, size_t way, struct random *random, struct fault *fault)
{
    struct fault one, other;
    (void)way;
    if (!break_edit(pair, random_below(random, OTHER_KIND), random, &one))
        return false;
    if (!(random_one_in(random, 2) ? break_version : break_last_version)(pair, random_between(random, DELETE, MODIFY), random, &other))
        return false;
    *fault = other.record <= one.record ? other : one;
    return true;
}

static bool break_one_record_twice(struct chart_pair *pair, size_t way, struct random *random, struct fault *fault)
{
    struct fault later;
    if (way == 0) {
        /* 14 before 16 */
        if (!break_edit(pair, random_below(random, OTHER_KIND), random, &later))
            return false;
        set_version(said_at(pair, later.record), version_of_record(said_at(pair, later.record)) - 1);
        return version_of_record(said_at(pair, later.record)) > 0 && wrong(fault, CODE_VERSION, later.record);
    }
    /* 14 before 15, or 13 before both */
    if (!break_identity(pair, random_below(random, 6), random, &later))
        return false;
    if (way == 1) {
        set_version(said_at(pair, later.record), LAST_VERSION);
        return version_of_record(held_of(pair, said_at(pair, later.record))) + 1 != LAST_VERSION && wrong(fault, CODE_VERSION, later.record);
    }
    *instruction_of(said_at(pair, later.record)) = INSERT;
    return wrong(fault, CODE_TARGET, later.record);
}

/* 15 before 16. */
static bool break_identity_and_edit(struct chart_pair *pair, size_t way, struct random *random, struct fault *fault)
{
    (void)way;
    if (!break_identity(pair, random_below(random, 6), random, fault))
        return false;
    struct chart_record *said = said_at(pair, fault->record);
    if (*instruction_of(said) == DELETE)
        put_any(said, feature_tags[random_below(random, 6)], random);
    else
        put_attribute(said, "ATTF", free_label(held_of(pair, said), said, "ATTF", random), "\x7F");
    return true;
}

const struct pair_rule update_faults[] = {
    {"other: DSNM, of the update", break_data_set_name, 0},
    {"other: DSNM, of the cell", break_data_set_name, 1},
    {"edition: EDTN", break_edition, 0},
    {"number: the cell's own again", break_number, NUMBER_AGAIN},
    {"number: the one after the next", break_number, NUMBER_AFTER_NEXT},
    {"number: any other", break_number, NUMBER_ANY},
    {"number: the cell is at 999", break_number, NUMBER_AFTER_999},
    {"level: AALL", break_level, 0},
    {"level: NALL", break_level, 1},
    {"number and level", break_two_heads, 0},
    {"edition and number", break_two_heads, 1},
    {"other and edition", break_two_heads, 2},
    {"target: a held record said to be inserted", break_insert_held, 0},
    {"target: an insert under a held name", break_insert_held, 1},
    {"target: a modify of none", break_change_of_none, MODIFY},
    {"target: a delete of none", break_change_of_none, DELETE},
    {"version: of an insert", break_version, INSERT},
    {"version: of a modify", break_version, MODIFY},
    {"version: of a delete", break_version, DELETE},
    {"version: a modify at 65,535", break_last_version, MODIFY},
    {"version: a delete at 65,535", break_last_version, DELETE},
    {"identity: PRIM", break_identity, 0},
    {"identity: GRUP", break_identity, 1},
    {"identity: OBJL", break_identity, 2},
    {"identity: AGEN", break_identity, 3},
    {"identity: FIDN", break_identity, 4},
    {"identity: FIDS", break_identity, 5},
    {"edit: a delete of a vector brings a field", break_delete, 0},
    {"edit: a delete of a feature brings a field", break_delete, 1},
    {"edit: VRPC in an insert", break_insert_control, 0},
    {"edit: SGCC in an insert", break_insert_control, 1},
    {"edit: FFPC in an insert", break_insert_control, 2},
    {"edit: FSPC in an insert", break_insert_control, 3},
    {"edit: 7F in ATTV of an insert", break_insert_removal, 0},
    {"edit: 7F in ATTF of an insert", break_insert_removal, 1},
    {"edit: 7F in NATF of an insert", break_insert_removal, 2},
    {"edit: 7F in ATTV finds nothing", break_removal, 0},
    {"edit: 7F in ATTF finds nothing", break_removal, 1},
    {"edit: 7F in NATF finds nothing", break_removal, 2},
    {"edit: a list without control", break_edit, NO_CONTROL},
    {"edit: an odd instruction", break_edit, BAD_INSTRUCTION},
    {"edit: index 0", break_edit, INDEX_0},
    {"edit: count 0", break_edit, COUNT_0},
    {"edit: an insert beyond the end", break_edit, INSERT_BEYOND},
    {"edit: a delete beyond the end", break_edit, DELETE_BEYOND},
    {"edit: a modify beyond the end", break_edit, MODIFY_BEYOND},
    {"edit: too few entries", break_edit, TOO_FEW},
    {"edit: too many entries", break_edit, TOO_MANY},
    {"edit: no entries", break_edit, NONE_BROUGHT},
    {"edit: a delete with entries", break_edit, DELETE_BRINGS},
    {"edit: coordinates of the other kind inserted", break_kind, INSERT},
    {"edit: coordinates of the other kind deleted", break_kind, DELETE},
    {"edit: coordinates of the other kind for the held", break_kind, MODIFY},
    {"two records broken", break_two_records, 0},
    {"version and edit in one record", break_one_record_twice, 0},
    {"version and identity in one record", break_one_record_twice, 1},
    {"target and identity in one record", break_one_record_twice, 2},
    {"identity and edit in one record", break_identity_and_edit, 0},
};

size_t update_fault_count(void)
{
    return sizeof update_faults / sizeof update_faults[0];
}
