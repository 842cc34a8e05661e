#include "cover_apply.h"

#include "../reader/reader.h"

#include <stdio.h>
#include <string.h>

/* ---- the lists: an entry is so many bytes, and then a text that ends in 1F, or none */

struct list_kind {
    const char *tag, *control; /* of attributes there is no control */
    size_t fixed;
    bool text;
};

static const struct list_kind lists[COVER_LISTS] = {
    {"VRPT", "VRPC", 9, false}, {"SG2D", "SGCC", 8, false}, {"SG3D", "SGCC", 12, false}, {"FFPT", "FFPC", 9, true}, {"FSPT", "FSPC", 8, false}};
static const struct list_kind texts[COVER_TEXTS] = {{"ATTV", NULL, 2, true}, {"ATTF", NULL, 2, true}, {"NATF", NULL, 2, true}};

static const char *const instruction_names[COVER_INSTRUCTIONS] = {"insert", "delete", "modify"};

enum where { FRONT, BETWEEN, END, WHOLE };
static const char *const place_names[COVER_PLACES] = {"in front", "between", "at the end", "of the whole list, or into none"};

enum parted { OF_CELL, OF_UPDATE };
static const char *const parted_names[COVER_PARTED] = {"held in several fields", "brought in several fields"};

enum value { REPLACED, EMPTIED, APPENDED, TAKEN_AWAY };
static const char *const value_names[COVER_VALUES] = {"replaced", "made unknown", "appended", "removed"};

/* ---- the files. A pair is good: all that is read here is there. */

struct item {
    const uint8_t *file;
    struct record record;
};

static struct field field_of(const struct item *item, size_t index)
{
    return reader_field(item->file, &item->record, index);
}

static bool is_tag(const struct field *field, const char *tag)
{
    return tag != NULL && field->tag == ((uint32_t)tag[0] << 24 | (uint32_t)tag[1] << 16 | (uint32_t)tag[2] << 8 | (uint32_t)tag[3]);
}

/* RCNM and RCID, and behind them RVER in a vector, but PRIM, GRUP and OBJL in a feature. */
static const uint8_t *identifier(const struct item *item)
{
    return item->file + field_of(item, 1).start;
}

static uint8_t instruction(const struct item *item)
{
    enum { FEATURE = 100 };
    const uint8_t *at = identifier(item);
    return at[at[0] == FEATURE ? 11 : 7];
}

/* The record of the cell that has the name of the update's; it is there. */
static struct item held_item(const struct buffer *cell, const struct item *said)
{
    struct item held = {cell->bytes, reader_record(cell->bytes, 0)};
    do
        held.record = reader_record(cell->bytes, held.record.end);
    while (memcmp(identifier(&held), identifier(said), 5) != 0);
    return held;
}

/* ---- entries */

static size_t entry_length(const uint8_t *at, const struct list_kind *list)
{
    enum { UNIT_END = 0x1F };
    size_t length = list->fixed;
    if (list->text)
        while (at[length++] != UNIT_END)
            ;
    return length;
}

struct counted {
    size_t entries, fields;
};

static struct counted count_list(const struct item *item, const struct list_kind *list)
{
    struct counted counted = {0};
    for (size_t i = 0; i < item->record.entries; i++) {
        struct field field = field_of(item, i);
        if (!is_tag(&field, list->tag))
            continue;
        counted.fields++;
        for (size_t at = 0; at < field.length - 1; at += entry_length(item->file + field.start + at, list))
            counted.entries++;
    }
    return counted;
}

/* ---- edits by a control */

static enum where place_of(uint8_t instruction, uint32_t index, uint32_t count, size_t held)
{
    if (held == 0 || (instruction != INSERT && index == 1 && count == held))
        return WHOLE;
    if (index == 1)
        return FRONT;
    return index + (instruction == INSERT ? 0 : count) == held + 1 ? END : BETWEEN;
}

/* Of coordinates the list that is held counts, or where none is the one that is brought. */
static bool concerns(const struct list_kind *list, struct counted held, struct counted brought, const struct item *item)
{
    if (list != &lists[1] && list != &lists[2])
        return true;
    const struct list_kind *other = list == &lists[1] ? &lists[2] : &lists[1];
    return held.entries > 0 || (brought.entries > 0 && count_list(item, other).entries == 0);
}

static void add_edit(struct cover *cover, size_t list, const struct item *held, const struct item *said, const uint8_t *control)
{
    struct counted in_cell = count_list(held, &lists[list]), brought = count_list(said, &lists[list]);
    uint32_t index = control[1] | (uint32_t)control[2] << 8, count = control[3] | (uint32_t)control[4] << 8;
    if (!concerns(&lists[list], in_cell, brought, held))
        return;
    cover->edits[list][control[0] - 1][place_of(control[0], index, count, in_cell.entries)]++;
    cover->parted[list][OF_CELL] += in_cell.fields > 1;
    cover->parted[list][OF_UPDATE] += brought.fields > 1;
}

/* ---- attributes */

static bool has_label(const struct item *item, const struct list_kind *list, const uint8_t *label)
{
    for (size_t i = 0; i < item->record.entries; i++) {
        struct field field = field_of(item, i);
        const uint8_t *content = item->file + field.start;
        for (size_t at = 0; is_tag(&field, list->tag) && at < field.length - 1; at += entry_length(content + at, list))
            if (memcmp(content + at, label, 2) == 0)
                return true;
    }
    return false;
}

static enum value value_of(const struct item *held, const struct list_kind *list, const uint8_t *entry)
{
    if (entry_length(entry, list) == 4 && entry[2] == REMOVED)
        return TAKEN_AWAY;
    if (!has_label(held, list, entry))
        return APPENDED;
    return entry_length(entry, list) == 3 ? EMPTIED : REPLACED;
}

static void add_values(struct cover *cover, size_t list, const struct item *held, const uint8_t *content, size_t length)
{
    for (size_t at = 0; at < length; at += entry_length(content + at, &texts[list]))
        cover->values[list][value_of(held, &texts[list], content + at)]++;
}

/* ---- a pair */

static void add_modify(struct cover *cover, const struct item *held, const struct item *said)
{
    for (size_t i = 0; i < said->record.entries; i++) {
        struct field field = field_of(said, i);
        for (size_t list = 0; list < COVER_LISTS; list++)
            if (is_tag(&field, lists[list].control))
                add_edit(cover, list, held, said, said->file + field.start);
        for (size_t list = 0; list < COVER_TEXTS; list++)
            if (is_tag(&field, texts[list].tag))
                add_values(cover, list, held, said->file + field.start, field.length - 1);
    }
}

void cover_add(struct cover *cover, const struct apply_case *made)
{
    const struct buffer *update = &made->update;
    struct item said = {update->bytes, reader_record(update->bytes, reader_record(update->bytes, 0).end)};
    while (said.record.end < update->length) {
        said.record = reader_record(update->bytes, said.record.end);
        if (instruction(&said) == MODIFY) {
            struct item held = held_item(&made->cell, &said);
            add_modify(cover, &held, &said);
        }
    }
}

/* ---- all of them */

static void demand(struct tally *tally, uint64_t count, const char *list, const char *what, const char *where)
{
    if (count == 0)
        printf("MISSING: no good pair has this edit: %s %s %s\n", list, what, where);
    tally_add(tally, "edits of good pairs: each kind came up", 0, count > 0);
}

/* An edge ends up with two VRPT: only a delete finds something between them. */
static bool possible(size_t list, size_t what, size_t where)
{
    return list > 0 || where != BETWEEN || what + 1 == DELETE;
}

void cover_demand(const struct cover *cover, struct tally *tally)
{
    for (size_t list = 0; list < COVER_LISTS; list++) {
        for (size_t what = 0; what < COVER_INSTRUCTIONS; what++)
            for (size_t where = 0; where < COVER_PLACES; where++)
                if (possible(list, what, where))
                    demand(tally, cover->edits[list][what][where], lists[list].tag, instruction_names[what], place_names[where]);
        for (size_t parted = 0; parted < COVER_PARTED; parted++)
            demand(tally, cover->parted[list][parted], lists[list].tag, "edited,", parted_names[parted]);
    }
    for (size_t list = 0; list < COVER_TEXTS; list++)
        for (size_t value = 0; value < COVER_VALUES; value++)
            demand(tally, cover->values[list][value], texts[list].tag, "entry", value_names[value]);
}
