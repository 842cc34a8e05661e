/* What a modify makes of a held record: its lists are put side by side behind room for a leader and a directory, which are written when all lengths are
   known. */
#include "tuned_shape.h"

enum { LISTS = 4, INSERT = 1, DELETE = 2, MODIFY = 3, COORDINATES = 2, RELATIONS = 2, SPATIAL = 3, LABELS = 65536 };

/* Leader, directory of nine fields with numbers of six digits, 1E. */
enum { HEAD_ROOM = LEADER + 9 * 16 + 1 };

static uint8_t made[2 * LONGEST_FILE + (HEAD_ROOM + 32) * (size_t)MOST_ITEMS], *made_end;
static uint32_t place_count;

void edits_open(const struct file *update)
{
    made_end = made;
    place_count = update->first + MOST_RECORDS;
}

/* ---- a record's lists, each in one piece */

struct list {
    const uint8_t *at;
    uint32_t length, tag; /* no tag: it isn't there */
};

struct parts {
    const uint8_t *identifier;
    struct list list[LISTS];
    const uint8_t *control[LISTS];
};

static void add_piece(struct list *list, uint32_t tag, const uint8_t *at, uint32_t length)
{
    if (list->tag == 0) {
        *list = (struct list){at, length, tag};
        return;
    }
    if (list->at + list->length != joined + joined_length) {
        memcpy(joined + joined_length, list->at, list->length);
        list->at = joined + joined_length;
        joined_length += list->length;
    }
    memcpy(joined + joined_length, at, length);
    joined_length += length;
    list->length += length;
}

static void add_field(struct parts *parts, uint32_t tag, const uint8_t *at, uint32_t length)
{
    switch (tag) {
    case TAG_ATTV:
    case TAG_ATTF:
        add_piece(&parts->list[0], tag, at, length);
        break;
    case TAG_VRPT:
    case TAG_NATF:
        add_piece(&parts->list[1], tag, at, length);
        break;
    case TAG_SG2D:
    case TAG_SG3D:
    case TAG_FFPT:
        add_piece(&parts->list[2], tag, at, length);
        break;
    case TAG_FSPT:
        add_piece(&parts->list[3], tag, at, length);
        break;
    case TAG_VRPC:
        parts->control[1] = at;
        break;
    case TAG_SGCC:
    case TAG_FFPC:
        parts->control[2] = at;
        break;
    default:
        parts->control[3] = at;
        break;
    }
}

/* Of a record that was read: its digits are known to be some. */
static void parts_open(struct parts *parts, const struct place *place, bool feature)
{
    const unsigned lengths = place->start[20] - (unsigned)'0', width = TAG_SIZE + lengths + place->start[21] - (unsigned)'0';
    const uint8_t *row = place->start + LEADER + (feature ? 3 : 2) * width, *at = place->start + place->body + (feature ? 25 : 12);
    const uint8_t *stop = place->start + place->body - 1;
    *parts = (struct parts){.identifier = place->start + place->body + 3};
    for (; row < stop; row += width) {
        uint32_t length = 0;
        for (unsigned i = 0; i < lengths; i++)
            length = length * 10 + (row[TAG_SIZE + i] - (uint32_t)'0');
        add_field(parts, four(row), at, length - 1);
        at += length;
    }
}

/* ---- entries. Those with a text are gone through one by one. */

static uint32_t entry_size(uint32_t tag)
{
    return tag == TAG_VRPT ? 9 : tag == TAG_SG3D ? 12 : 8;
}

static inline const uint8_t *behind_text(const uint8_t *at)
{
    while (*at != UNIT_END)
        at++;
    return at + 1;
}

/* Behind so many relations from `at` on, or null where they aren't all there. */
static const uint8_t *behind_relations(const uint8_t *at, const uint8_t *end, uint32_t count)
{
    for (; count > 0; count--) {
        if (at == end)
            return NULL;
        at = at[9] == UNIT_END ? at + 10 : behind_text(at + 9);
    }
    return at;
}

/* Behind so many entries, or null. */
static const uint8_t *behind_entries(const struct list *list, const uint8_t *at, uint32_t tag, uint32_t count)
{
    const uint8_t *end = list->at + list->length;
    if (tag == TAG_FFPT)
        return behind_relations(at, end, count);
    return (size_t)(end - at) / entry_size(tag) >= count ? at + (size_t)count * entry_size(tag) : NULL;
}

static uint8_t *put_bytes(uint8_t *to, const uint8_t *from, size_t count)
{
    if (count > 0)
        memcpy(to, from, count);
    return to + count;
}

/* ---- lists with a control. Each returns where the next byte goes, or null where the edit is refused. */

static uint8_t *edit_list(uint8_t *to, const struct list *held, const struct list *comes, const uint8_t *control, uint32_t tag)
{
    static const uint8_t nothing[1];
    const struct list old = held->tag != 0 ? *held : (struct list){nothing, 0, tag}, new = comes->tag != 0 ? *comes : (struct list){nothing, 0, tag};
    const uint32_t instruction = control[0], index = two(control + 1), count = two(control + 3);
    if (instruction < INSERT || instruction > MODIFY || index == 0 || count == 0)
        return NULL;
    if (instruction == DELETE ? new.length > 0 : behind_entries(&new, new.at, tag, count) != new.at + new.length)
        return NULL;
    const uint8_t *from = behind_entries(&old, old.at, tag, index - 1);
    const uint8_t *rest = from == NULL || instruction == INSERT ? from : behind_entries(&old, from, tag, count);
    if (rest == NULL)
        return NULL;
    to = put_bytes(to, old.at, (size_t)(from - old.at));
    to = put_bytes(to, new.at, new.length);
    return put_bytes(to, rest, (size_t)(old.at + old.length - rest));
}

/* An attribute has three bytes or more, and mostly few. */
ALWAYS uint8_t *put_attribute(uint8_t *to, const uint8_t *from, size_t count)
{
    if (count > 16)
        return put_bytes(to, from, count);
    if (count >= 8) {
        uint64_t first = eight(from), last = eight(from + count - 8);
        memcpy(to, &first, 8);
        memcpy(to + count - 8, &last, 8);
    } else if (count >= 4) {
        uint32_t first = four(from), last = four(from + count - 4);
        memcpy(to, &first, 4);
        memcpy(to + count - 4, &last, 4);
    } else {
        to[0] = from[0];
        to[1] = from[1];
        to[2] = from[2];
    }
    return to + count;
}

/* ---- attributes: for each label the number of the update's list that has it, and where. Held ones that stay are copied together. */

struct noted {
    uint32_t list, at;
};

static struct noted noted[LABELS];
static uint32_t list_number;

static inline const uint8_t *behind_attribute(const uint8_t *at)
{
    return at[2] == UNIT_END ? at + 3 : behind_text(at + 3);
}

static void note_attributes(const struct list *comes)
{
    const uint8_t *end = comes->at + comes->length;
    if (++list_number == 0) {
        memset(noted, 0, sizeof noted);
        list_number = 1;
    }
    for (const uint8_t *at = comes->at; at < end; at = behind_attribute(at))
        noted[two(at)] = (struct noted){list_number, (uint32_t)(at - comes->at)};
}

static uint8_t *put_held_attributes(uint8_t *to, const struct list *held, const struct list *comes)
{
    const uint8_t *end = held->at + held->length, *kept = held->at, *next;
    for (const uint8_t *at = held->at; at < end; at = next) {
        struct noted *note = &noted[two(at)];
        next = behind_attribute(at);
        if (note->list != list_number)
            continue;
        to = put_bytes(to, kept, (size_t)(at - kept));
        kept = next;
        const uint8_t *new = comes->at + note->at;
        if (new[2] != REMOVED)
            to = put_attribute(to, new, (size_t)(behind_attribute(new) - new));
        note->list = 0;
    }
    return put_bytes(to, kept, (size_t)(end - kept));
}

static uint8_t *put_new_attributes(uint8_t *to, const struct list *comes)
{
    const uint8_t *end = comes->at + comes->length, *next;
    for (const uint8_t *at = comes->at; at < end; at = next) {
        next = behind_attribute(at);
        if (noted[two(at)].list != list_number)
            continue;
        if (at[2] == REMOVED)
            return NULL;
        to = put_attribute(to, at, (size_t)(next - at));
    }
    return to;
}

static uint8_t *edit_attributes(uint8_t *to, const struct list *held, const struct list *comes)
{
    if (comes->tag == 0)
        return put_bytes(to, held->at, held->length);
    note_attributes(comes);
    return put_new_attributes(held->tag != 0 ? put_held_attributes(to, held, comes) : to, comes);
}

/* ---- the record */

/* What the lists are in the end; `at` and `length` of those that stand in the new record. */
static uint8_t *put_list(uint8_t *to, const struct parts *held, const struct parts *said, size_t slot, bool attributes, struct list *result)
{
    const struct list *old = &held->list[slot], *new = &said->list[slot];
    const uint8_t *start = to;
    uint32_t tag = old->tag != 0 ? old->tag : new->tag;
    if (attributes) {
        to = edit_attributes(to, old, new);
    } else if (said->control[slot] == NULL) {
        if (new->tag != 0)
            return NULL;
        to = put_bytes(to, old->at, old->length);
    } else {
        if (old->tag != 0 && new->tag != 0 && old->tag != new->tag)
            return NULL;
        to = edit_list(to, old, new, said->control[slot], tag);
    }
    if (to == NULL)
        return NULL;
    *result = (struct list){start, (uint32_t)(to - start), to > start ? tag : 0};
    if (to > start)
        *to++ = FIELD_END;
    return to;
}

static uint8_t *put_identifiers(uint8_t *to, const struct parts *held, const struct parts *said, bool feature)
{
    const size_t length = feature ? 13 + 9 : 9, version = feature ? 9 : 5;
    to[2] = FIELD_END;
    memcpy(to + 3, held->identifier, length);
    memcpy(to + 3 + version, said->identifier + version, 2);
    return to + 3 + length;
}

static void outline_record(struct outline *outline, const struct list *lists, bool feature)
{
    outline_add(outline, TAG_0001, 3);
    outline_add(outline, feature ? TAG_FRID : TAG_VRID, feature ? 13 : 9);
    if (feature)
        outline_add(outline, TAG_FOID, 9);
    for (size_t slot = 0; slot < LISTS; slot++)
        if (lists[slot].tag != 0)
            outline_add(outline, lists[slot].tag, lists[slot].length + 1);
}

/* ---- what topology wants to know of it */

static uint32_t add_feature(const struct feature *held, const struct list *lists, const struct parts *said)
{
    struct feature *feature = &features[feature_count];
    *feature = *held;
    if (said->control[SPATIAL] != NULL) {
        feature->spatial = lists[SPATIAL].at;
        feature->spatial_length = lists[SPATIAL].length;
    }
    if (said->control[RELATIONS] != NULL) {
        const uint8_t *end = lists[RELATIONS].at + lists[RELATIONS].length;
        feature->relation = (uint32_t)relation_count;
        for (const uint8_t *at = lists[RELATIONS].at; at < end; at = behind_relations(at, end, 1))
            relations[relation_count++] = eight(at);
        feature->relations = (uint32_t)relation_count - feature->relation;
    }
    return (uint32_t)feature_count++;
}

static void shape_vector(const struct list *lists, enum class class, uint32_t north, struct edited *edited)
{
    struct shape shape = {0};
    const struct list *coordinates = &lists[COORDINATES];
    if (lists[1].tag != 0)
        add_pointers(&shape, lists[1].at, lists[1].at + lists[1].length);
    if (coordinates->tag == TAG_SG2D)
        add_pairs(&shape, coordinates->at, coordinates->length / 8, north);
    if (coordinates->tag == TAG_SG3D)
        add_soundings(&shape, coordinates->at, coordinates->length / 12, north);
    edited->ends = shape.at;
    edited->place = unshaped(class, &shape) ? UNSHAPED : 0;
}

bool revise_record(const struct place *held, const struct place *said, enum class class, uint32_t north, struct edited *known)
{
    const bool feature = class == FEATURE;
    struct parts old, new;
    struct list lists[LISTS] = {{0}};
    struct outline outline = {0};
    parts_open(&old, held, feature);
    parts_open(&new, said, feature);
    uint8_t *body = made_end + HEAD_ROOM, *end = put_identifiers(body, &old, &new, feature);
    for (size_t slot = 0; slot < (feature ? 4 : 3); slot++) {
        end = put_list(end, &old, &new, slot, slot == 0 || (feature && slot == 1), &lists[slot]);
        if (end == NULL)
            return false;
    }
    outline_record(&outline, lists, feature);
    uint32_t length = outline_length(&outline), base = length - outline.area;
    put_outline(&outline, body - base);
    made_end = end;
    struct place *place = &places[place_count];
    *place = (struct place){.start = body - base, .length = length, .body = base, .held = length | DIRECT};
    if (feature)
        place->feature = add_feature(&features[held->feature], lists, &new);
    else if (new.control[1] != NULL || new.control[2] != NULL)
        shape_vector(lists, class, north, known);
    known->place = (known->place & UNSHAPED) | place_count++;
    return true;
}
