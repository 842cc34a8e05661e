/* "Records": which fields a record has, in which order, and that each is filled by its subfields.

   A record's form is a row of slots. A field belongs to the first slot from the place reached that has its tag; a slot that must be filled
   stops the search, so that a field standing where another is due is the one that is wrong. */
#include "reader_parts.h"

#include <string.h>

enum rule {
    ONE,     /* exactly one */
    LIST,    /* any number, side by side */
    CONTROL, /* at most one, in updates alone */
    OTHER,   /* as LIST, but not beside the list in the slot before */
};

struct slot {
    uint8_t kind, rule;
};

struct form {
    size_t slots;
    struct slot slot[9];
};

static const struct form header = {3, {{KIND_0001, ONE}, {KIND_DSID, ONE}, {KIND_DSSI, ONE}}};
static const struct form parameters = {2, {{KIND_0001, ONE}, {KIND_DSPM, ONE}}};
static const struct form vector = {
    8,
    {{KIND_0001, ONE}, {KIND_VRID, ONE}, {KIND_ATTV, LIST}, {KIND_VRPC, CONTROL}, {KIND_VRPT, LIST}, {KIND_SGCC, CONTROL},
     {KIND_SG2D, LIST}, {KIND_SG3D, OTHER}},
};
static const struct form feature = {
    9,
    {{KIND_0001, ONE}, {KIND_FRID, ONE}, {KIND_FOID, ONE}, {KIND_ATTF, LIST}, {KIND_NATF, LIST}, {KIND_FFPC, CONTROL},
     {KIND_FFPT, LIST}, {KIND_FSPC, CONTROL}, {KIND_FSPT, LIST}},
};

/* One group of subfields from `at` on; returns what follows it, or null where it doesn't fit before `end`. */
static const uint8_t *take_group(const uint8_t *at, const uint8_t *end, const int8_t *run)
{
    for (; *run != RUNS_END; run++) {
        if (*run == RUN_TEXT) {
            while (at < end && *at != UNIT_END)
                at++;
            if (at == end)
                return NULL;
            at++;
        } else {
            if (end - at < *run)
                return NULL;
            at += *run;
        }
    }
    return at;
}

/* `length` is without the closing 1E. */
static bool filled(const uint8_t *content, size_t length, const struct description *row)
{
    size_t first = (size_t)row->runs[0];
    if (row->runs[1] == RUNS_END)
        return row->repeats ? length > 0 && length % first == 0 : length == first;
    const uint8_t *at = content, *end = content + length;
    do {
        at = take_group(at, end, row->runs);
        if (at == NULL)
            return false;
    } while (row->repeats && at < end);
    return at == end;
}

/* The slot of a tag from `slot` on, or form->slots where it has no place there. */
static size_t find_slot(const struct form *form, size_t slot, uint32_t tag, bool update)
{
    for (; slot < form->slots; slot++) {
        const struct slot *here = &form->slot[slot];
        if (table[here->kind].tag == tag && (here->rule != CONTROL || update))
            return slot;
        if (here->rule == ONE)
            break;
    }
    return form->slots;
}

/* A vector record can't follow a feature: from the first feature on, every record is held to a feature's form. */
static const struct form *form_of(const struct reading *reading, const struct record *record, size_t index)
{
    if (index == 1)
        return &header;
    if (index == 2 && !reading->update)
        return &parameters;
    bool second_is_feature = record->entries > 1 && reader_field(reading->bytes, record, 1).tag == TAG_FRID;
    return reading->features || second_is_feature ? &feature : &vector;
}

size_t layout_fault(struct reading *reading, const struct record *record, size_t index)
{
    const struct form *form = form_of(reading, record, index);
    size_t slot = 0, before = form->slots; /* where the field before stands */
    for (size_t i = 0; i < record->entries; i++) {
        struct field field = reader_field(reading->bytes, record, i);
        slot = find_slot(form, slot, field.tag, reading->update);
        if (slot == form->slots)
            return field.start;
        unsigned kind = form->slot[slot].kind, rule = form->slot[slot].rule;
        if ((rule == OTHER && before + 1 == slot) || !(reading->declared >> kind & 1))
            return field.start;
        if (!filled(reading->bytes + field.start, field.length - 1, &table[kind]))
            return field.start;
        reading->fields[i] = field;
        before = slot;
        slot += rule == ONE || rule == CONTROL;
    }
    for (; slot < form->slots; slot++)
        if (form->slot[slot].rule == ONE)
            return record->end;
    reading->field_count = record->entries;
    reading->features = form == &feature;
    return FINE;
}
