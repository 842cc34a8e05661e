/* "Updates", what one record of an update does (16): what an insert and a delete may bring, and what a modify makes of the lists of a held record. The
   changed record is put together with each list in one field; every list is gone through once or twice, however many fields it stands in. */
#include "reader_parts.h"

#include <stdlib.h>
#include <string.h>

enum { INSERT = 1, DELETE = 2, MODIFY = 3, REMOVED = 0x7F, LABELS = 65536, FEATURE = 100 };

/* A list of a record, and the control that acts on it, or KINDS where ATTL does. Coordinates are one list that comes in two kinds. */
struct list {
    enum kind control, kind, other;
};

static const struct list vector_lists[] = {
    {KINDS, KIND_ATTV, KIND_ATTV},
    {KIND_VRPC, KIND_VRPT, KIND_VRPT},
    {KIND_SGCC, KIND_SG2D, KIND_SG3D},
};

static const struct list feature_lists[] = {
    {KINDS, KIND_ATTF, KIND_ATTF},
    {KINDS, KIND_NATF, KIND_NATF},
    {KIND_FFPC, KIND_FFPT, KIND_FFPT},
    {KIND_FSPC, KIND_FSPT, KIND_FSPT},
};

/* Where the update's list at hand has a label: the number of that list, and the attribute. */
struct noted {
    uint32_t list;
    const uint8_t *attribute;
};

void editing_open(struct editing *editing, struct result *result)
{
    *editing = (struct editing){.result = result, .noted = calloc(LABELS, sizeof editing->noted[0])};
    if (editing->noted == NULL)
        abort();
    /* so that it has memory also where nothing is brought */
    buffer_more(&editing->brought, 1);
}

void editing_close(struct editing *editing)
{
    free(editing->noted);
    buffer_free(&editing->brought);
}

/* ---- the record at hand, field by field */

static const uint8_t *content_of(const struct reading *reading, size_t index)
{
    return reading->from + reading->fields[index].start;
}

static bool is_feature(const struct reading *reading)
{
    return content_of(reading, 1)[0] == FEATURE;
}

/* How many fields identify it: 0001 and VRID, or 0001, FRID and FOID. */
static size_t identifiers(const struct reading *reading)
{
    return is_feature(reading) ? 3 : 2;
}

/* The fields of a list, which stand side by side, and their kind. */
struct run {
    size_t first, count;
    enum kind kind;
};

static struct run find_run(const struct reading *reading, const struct list *list)
{
    struct run run = {.first = identifiers(reading), .kind = list->kind};
    const uint32_t tag = table[list->kind].tag, other = table[list->other].tag;
    while (run.first < reading->field_count && reading->fields[run.first].tag != tag && reading->fields[run.first].tag != other)
        run.first++;
    while (run.first + run.count < reading->field_count && reading->fields[run.first + run.count].tag == reading->fields[run.first].tag)
        run.count++;
    if (run.count > 0 && reading->fields[run.first].tag == other)
        run.kind = list->other;
    return run;
}

/* A control's five bytes, or null. */
static const uint8_t *find_control(const struct reading *reading, enum kind kind)
{
    for (size_t i = identifiers(reading); i < reading->field_count; i++)
        if (reading->fields[i].tag == table[kind].tag)
            return content_of(reading, i);
    return NULL;
}

static void join(struct buffer *to, const struct reading *reading, const struct run *run)
{
    for (size_t i = run->first; i < run->first + run->count; i++)
        buffer_put(to, content_of(reading, i), reading->fields[i].length - 1);
}

/* ---- inserts and deletes */

/* Behind an attribute: its label, and its value up to 1F. */
static inline const uint8_t *behind_attribute(const uint8_t *at)
{
    at += 2;
    while (*at++ != UNIT_END)
        continue;
    return at;
}

static bool removes_any(const uint8_t *at, const uint8_t *end)
{
    for (; at < end; at = behind_attribute(at))
        if (at[2] == REMOVED)
            return true;
    return false;
}

bool insert_allowed(const struct reading *update)
{
    for (size_t i = identifiers(update); i < update->field_count; i++) {
        const uint8_t *content = content_of(update, i);
        switch (update->fields[i].tag) {
        case TAG_VRPC:
        case TAG_SGCC:
        case TAG_FFPC:
        case TAG_FSPC:
            return false;
        case TAG_ATTV:
        case TAG_ATTF:
        case TAG_NATF:
            if (removes_any(content, content + update->fields[i].length - 1))
                return false;
            break;
        default:
            break;
        }
    }
    return true;
}

bool delete_allowed(const struct reading *update)
{
    return update->field_count == identifiers(update);
}

/* ---- the changed record: fields one after the other in the result's contents */

/* Closes the field that stands from `start` on. An empty list is no field. */
static void close_field(struct result *result, uint32_t tag, size_t start)
{
    if (result->contents.length == start)
        return;
    *buffer_more(&result->contents, 1) = FIELD_END;
    if (result->field_count == result->field_room) {
        result->field_room = 2 * result->field_room + 64;
        result->fields = grow(result->fields, result->field_room, sizeof result->fields[0]);
    }
    result->fields[result->field_count++] = (struct field){tag, start, result->contents.length - start};
}

/* The held identifiers, but for RVER, which the update has said. */
static void put_identifiers(struct result *result, const struct reading *cell, const struct reading *update)
{
    const size_t version = is_feature(cell) ? 9 : 5;
    for (size_t i = 0; i < identifiers(cell); i++) {
        size_t start = result->contents.length;
        buffer_put(&result->contents, content_of(cell, i), cell->fields[i].length - 1);
        if (i == 1)
            memcpy(result->contents.bytes + start + version, content_of(update, 1) + version, 2);
        close_field(result, cell->fields[i].tag, start);
    }
}

/* ---- lists with a control */

/* Edits the entries that the contents end with, from `start` on. */
static bool edit_entries(struct buffer *contents, size_t start, const struct buffer *brought, const uint8_t *control, const int8_t *runs)
{
    const uint8_t *held = contents->bytes + start;
    size_t instruction = control[0], index = number_at(control + 1, 2), count = number_at(control + 3, 2);
    size_t length = count_groups(held, contents->bytes + contents->length, runs);
    size_t comes = count_groups(brought->bytes, brought->bytes + brought->length, runs);
    if (instruction < INSERT || instruction > MODIFY || index == 0 || count == 0 || comes != (instruction == DELETE ? 0 : count))
        return false;
    if (instruction == INSERT ? index > length + 1 : index + count - 1 > length)
        return false;
    const uint8_t *from = skip_groups(held, runs, index - 1);
    size_t at = (size_t)(from - contents->bytes);
    if (instruction != INSERT)
        buffer_remove(contents, at, (size_t)(skip_groups(from, runs, count) - from));
    if (brought->length > 0)
        memcpy(buffer_open(contents, at, brought->length), brought->bytes, brought->length);
    return true;
}

/* Where coordinates are held they can be joined or replaced by their own kind alone; where none are, either may come. */
static bool edit_list(struct editing *editing, const struct list *list, const struct reading *cell, const struct reading *update)
{
    struct result *result = editing->result;
    const uint8_t *control = find_control(update, list->control);
    struct run held = find_run(cell, list), comes = find_run(update, list);
    size_t start = result->contents.length;
    join(&result->contents, cell, &held);
    if (control == NULL && comes.count > 0)
        return false;
    if (control != NULL) {
        if (held.count > 0 && comes.count > 0 && held.kind != comes.kind)
            return false;
        held.kind = held.count > 0 ? held.kind : comes.kind;
        editing->brought.length = 0;
        join(&editing->brought, update, &comes);
        if (!edit_entries(&result->contents, start, &editing->brought, control, table[held.kind].runs))
            return false;
    }
    close_field(result, table[held.kind].tag, start);
    return true;
}

/* ---- attributes: each held one stays, is replaced in its place or goes; then come those that found none. What they write goes to `to`, and they return
   where the next byte goes. */

static void note_attributes(struct editing *editing)
{
    const uint8_t *end = editing->brought.bytes + editing->brought.length;
    editing->list++;
    for (const uint8_t *at = editing->brought.bytes; at < end; at = behind_attribute(at))
        editing->noted[number_at(at, 2)] = (struct noted){editing->list, at};
}

static uint8_t *put_attribute(uint8_t *to, const uint8_t *attribute)
{
    size_t size = (size_t)(behind_attribute(attribute) - attribute);
    memcpy(to, attribute, size);
    return to + size;
}

/* A held field's. Those of the update that find one are done with. */
static uint8_t *put_held_attributes(struct editing *editing, uint8_t *to, const uint8_t *at, const uint8_t *end)
{
    for (; at < end; at = behind_attribute(at)) {
        struct noted *noted = &editing->noted[number_at(at, 2)];
        if (noted->list != editing->list) {
            to = put_attribute(to, at);
            continue;
        }
        if (noted->attribute[2] != REMOVED)
            to = put_attribute(to, noted->attribute);
        noted->list = 0;
    }
    return to;
}

/* Null where one is to be removed that isn't held. */
static uint8_t *put_new_attributes(const struct editing *editing, uint8_t *to)
{
    const uint8_t *end = editing->brought.bytes + editing->brought.length;
    for (const uint8_t *at = editing->brought.bytes; at < end; at = behind_attribute(at)) {
        if (editing->noted[number_at(at, 2)].list != editing->list)
            continue;
        if (at[2] == REMOVED)
            return NULL;
        to = put_attribute(to, at);
    }
    return to;
}

static bool edit_attributes(struct editing *editing, const struct list *list, const struct reading *cell, const struct reading *update)
{
    struct buffer *contents = &editing->result->contents;
    struct run held = find_run(cell, list), comes = find_run(update, list);
    size_t start = contents->length, most = 0;
    editing->brought.length = 0;
    join(&editing->brought, update, &comes);
    note_attributes(editing);
    for (size_t i = held.first; i < held.first + held.count; i++)
        most += cell->fields[i].length;
    uint8_t *to = buffer_more(contents, most + editing->brought.length);
    for (size_t i = held.first; i < held.first + held.count; i++)
        to = put_held_attributes(editing, to, content_of(cell, i), content_of(cell, i) + cell->fields[i].length - 1);
    to = put_new_attributes(editing, to);
    if (to == NULL)
        return false;
    contents->length = (size_t)(to - contents->bytes);
    close_field(editing->result, table[list->kind].tag, start);
    return true;
}

/* ---- a modify */

bool edit_record(struct editing *editing, const struct reading *cell, const struct reading *update)
{
    struct result *result = editing->result;
    const struct list *lists = is_feature(cell) ? feature_lists : vector_lists;
    size_t count = is_feature(cell) ? sizeof feature_lists / sizeof lists[0] : sizeof vector_lists / sizeof lists[0];
    size_t first = result->field_count;
    put_identifiers(result, cell, update);
    for (size_t i = 0; i < count; i++) {
        bool attributes = lists[i].control == KINDS;
        if (!(attributes ? edit_attributes : edit_list)(editing, &lists[i], cell, update))
            return false;
    }
    result->changed[result->changed_count++] = (struct changed){first, result->field_count - first};
    return true;
}
