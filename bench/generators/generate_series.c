/* Updates of a chart one after the other, each of which leaves its topology right: nodes move, edges bend, are split and get other ends, features get other
   attributes, relations and boundaries, records come and go. Every change is made in the maker's own chart, and the update says it. */
#include "generate_pair.h"

#include "generate_scene.h"

#include <stdlib.h>
#include <string.h>

enum { NAME = 5, FSPT_SIZE = 8, VRPT_SIZE = 9, FFPT_SIZE = 10, LAST_VERSION = 65535, POINT = 1, LINE = 2, AREA = 3 };

struct advance {
    struct chart *model;
    struct chart update;
    struct random *random;
    const struct step_style *style;
    struct buffer touched; /* names: a record has one change an update */
    int32_t comf;
    bool high_attributes, high_national;
};

/* ---- what the chart has */

static size_t items(const struct advance *advance)
{
    return advance->model->list.count - FIRST_CELL_ITEM;
}

static struct chart_record *item_at(const struct advance *advance, size_t index)
{
    return &advance->model->list.record[FIRST_CELL_ITEM + index];
}

/* One that the test likes, the next from anywhere on, or null. */
typedef bool liking(const struct advance *advance, const struct chart_record *record, const void *wanted);

static struct chart_record *pick(const struct advance *advance, liking *likes, const void *wanted)
{
    size_t count = items(advance), from = random_below(advance->random, (uint32_t)count);
    for (size_t i = 0; i < count; i++)
        if (likes(advance, item_at(advance, (from + i) % count), wanted))
            return item_at(advance, (from + i) % count);
    return NULL;
}

static bool is_of_class(const struct advance *advance, const struct chart_record *record, const void *class)
{
    (void)advance;
    return name_of_record(record)[0] == *(const uint8_t *)class;
}

static struct chart_record *pick_class(const struct advance *advance, uint8_t class)
{
    return pick(advance, is_of_class, &class);
}

static bool is_touched(const struct advance *advance, const struct chart_record *record)
{
    for (size_t at = 0; at < advance->touched.length; at += NAME)
        if (memcmp(advance->touched.bytes + at, name_of_record(record), NAME) == 0)
            return true;
    return false;
}

static void touch(struct advance *advance, const struct chart_record *record)
{
    buffer_put(&advance->touched, name_of_record(record), NAME);
}

static bool may_change(const struct advance *advance, const struct chart_record *record, const void *unused)
{
    (void)unused;
    return version_of_record(record) < LAST_VERSION && !is_touched(advance, record);
}

static uint8_t primitive_of(const struct chart_record *record)
{
    return is_vector(record) ? 0 : name_of_record(record)[5];
}

/* How often a list of a record names another one. */
static size_t times_named(const struct chart_record *record, const char *tag, size_t size, const uint8_t *name)
{
    size_t times = 0, at = find_field(record, tag);
    for (size_t i = 0; at < record->count && i < record->field[at].content.length; i += size)
        times += memcmp(record->field[at].content.bytes + i, name, NAME) == 0;
    return times;
}

static bool has_edge(const struct chart_record *record, const uint8_t *name)
{
    return !is_vector(record) && times_named(record, "FSPT", FSPT_SIZE, name) > 0;
}

/* ---- changes: the record's version goes up, and the update names it */

static struct chart_record *change(struct advance *advance, struct chart_record *record)
{
    uint64_t version = version_of_record(record) + 1;
    touch(advance, record);
    set_version(record, version);
    return say_change(&advance->update, record, version, MODIFY, advance->random);
}

static void edit(struct chart_record *record, struct chart_record *said, const char *control_tag, const char *tag, struct control control,
                 const struct buffer *entries)
{
    if (control.instruction != INSERT)
        remove_entries(record, tag, control.index, control.count);
    if (control.instruction != DELETE)
        insert_entries(record, tag, control.index, entries);
    say_edit(said, control_tag, tag, control, record);
}

/* Any edit of a list of that length that leaves `least` entries. */
static struct control any_edit(uint32_t length, uint32_t least, struct random *random)
{
    struct control control = {.instruction = length == 0 ? INSERT : random_between(random, INSERT, MODIFY)};
    uint32_t most = control.instruction == DELETE ? length - least : control.instruction == MODIFY ? length : 3;
    if (most == 0) {
        control.instruction = INSERT;
        most = 3;
    }
    control.count = random_between(random, 1, most < 3 ? most : 3);
    uint32_t last = control.instruction == INSERT ? length + 1 : length - control.count + 1;
    control.index = random_one_in(random, 3) ? 1 : random_one_in(random, 2) ? last : random_between(random, 1, last);
    return control;
}

/* ---- coordinates */

static void put_pair(const struct advance *advance, struct buffer *entries)
{
    put_number(entries, 4, (uint32_t)(53 * advance->comf + (int32_t)random_below(advance->random, (uint32_t)advance->comf / 2 + 1)));
    put_number(entries, 4, (uint32_t)(-2 * advance->comf - (int32_t)random_below(advance->random, (uint32_t)advance->comf / 2 + 1)));
}

static void put_coordinates(const struct advance *advance, struct buffer *entries, bool soundings, uint32_t count)
{
    for (; count > 0; count--) {
        put_pair(advance, entries);
        if (soundings)
            put_number(entries, 4, random_between(advance->random, 5, 400));
    }
}

static void change_coordinates(struct advance *advance, struct chart_record *record, struct chart_record *said)
{
    const char *tag = coordinates_of(record);
    bool edge = name_of_record(record)[0] == 130, soundings = strcmp(tag, "SG3D") == 0;
    struct control control = {MODIFY, 1, 1};
    struct buffer entries = {0};
    if (edge || soundings)
        control = any_edit((uint32_t)list_length(record, tag), edge ? 0 : 1, advance->random);
    put_coordinates(advance, &entries, soundings, control.count);
    edit(record, said, "SGCC", tag, control, &entries);
    buffer_free(&entries);
}

/* ---- the ends of an edge */

static bool in_area(const struct advance *advance, const uint8_t *edge)
{
    for (size_t i = 0; i < items(advance); i++)
        if (primitive_of(item_at(advance, i)) == AREA && has_edge(item_at(advance, i), edge))
            return true;
    return false;
}

/* The two exchange places, or one of them becomes another node, if no ring wants the old one. */
static void change_ends(struct advance *advance, struct chart_record *record, struct chart_record *said)
{
    const uint8_t *ends = record->field[find_field(record, "VRPT")].content.bytes;
    struct control control = {MODIFY, 1, 2};
    struct buffer entries = {0};
    if (random_one_in(advance->random, 2) && !in_area(advance, name_of_record(record))) {
        control.index = random_between(advance->random, 1, 2);
        control.count = 1;
        buffer_put(&entries, name_of_record(pick_class(advance, 120)), NAME);
        buffer_put(&entries, ends + VRPT_SIZE * (control.index - 1) + NAME, VRPT_SIZE - NAME);
    } else {
        buffer_put(&entries, ends + VRPT_SIZE, VRPT_SIZE);
        buffer_put(&entries, ends, VRPT_SIZE);
    }
    edit(record, said, "VRPC", "VRPT", control, &entries);
    buffer_free(&entries);
}

/* ---- attributes */

/* A value of that label from another record, or none: other readers know which values a label may have. */
static void put_known_value(const struct advance *advance, struct buffer *content, uint64_t label)
{
    const struct chart_record *other = item_at(advance, random_below(advance->random, (uint32_t)items(advance)));
    size_t at = find_field(other, "ATTF"), entries = list_length(other, "ATTF");
    for (size_t i = 0; i < entries; i++) {
        struct place place = entry_place(&other->field[at], i);
        if (get_number(other->field[at].content.bytes + place.start, 2) != label)
            continue;
        buffer_put(content, other->field[at].content.bytes + place.start + 2, place.length - 2);
        return;
    }
    put_text(content, "");
}

static void put_new_value(const struct advance *advance, struct buffer *content, uint64_t label, bool high)
{
    if (advance->style->plain)
        put_known_value(advance, content, label);
    else
        put_value_text(content, high, false, advance->random);
}

/* One held attribute gets another value, or goes. A plain list keeps one at least: other readers don't look at NATF where there is no ATTF. */
static void change_attribute(struct advance *advance, struct chart_field *field, size_t entry, bool high, struct buffer *said)
{
    struct place place = entry_place(field, entry), value = subfield_place(field, entry, "ATVL");
    uint64_t label = get_number(field->content.bytes + place.start, 2);
    struct buffer text = {0};
    put_number(said, 2, label);
    if (random_one_in(advance->random, 2) && (!advance->style->plain || count_entries(field) > 1)) {
        buffer_remove(&field->content, place.start, place.length);
        put_text(said, "\x7F");
        return;
    }
    put_new_value(advance, &text, label, high);
    buffer_put(said, text.bytes, text.length);
    replace_bytes(&field->content, value, text.bytes, text.length - 1);
    buffer_free(&text);
}

static bool has_label(const struct chart_field *field, uint64_t label)
{
    for (size_t i = 0, count = count_entries(field); i < count; i++)
        if (get_number(field->content.bytes + entry_place(field, i).start, 2) == label)
            return true;
    return false;
}

/* One that the list hasn't, and that the update hasn't removed from it. */
static void append_attribute(struct advance *advance, struct chart_field *field, bool high, struct chart_field *said)
{
    struct buffer attribute = {0};
    uint64_t label = random_next(advance->random) & 0xFFFF;
    if (has_label(field, label) || has_label(said, label))
        return;
    put_number(&attribute, 2, label);
    put_new_value(advance, &attribute, label, high);
    buffer_put(&field->content, attribute.bytes, attribute.length);
    buffer_put(&said->content, attribute.bytes, attribute.length);
    buffer_free(&attribute);
}

static void change_attributes(struct advance *advance, struct chart_record *record, struct chart_record *said, const char *tag, bool high)
{
    size_t at = place_of_tag(record, tag), length = list_length(record, tag);
    struct chart_field says = {.tag = "ATTF"};
    if (length == 0)
        insert_field(record, at, tag);
    /* from the end on, so that those not looked at yet keep their number */
    for (size_t i = length; i > 0; i--)
        if (random_one_in(advance->random, 3))
            change_attribute(advance, &record->field[at], i - 1, high, &says.content);
    for (uint32_t more = advance->style->plain ? 0 : random_below(advance->random, 3); more > 0; more--)
        append_attribute(advance, &record->field[at], high, &says);
    if (record->field[at].content.length == 0)
        remove_field(record, at);
    if (says.content.length > 0)
        add_field(said, tag)->content = says.content;
}

/* ---- relations */

static bool is_feature(const struct advance *advance, const struct chart_record *record, const void *unused)
{
    (void)advance;
    (void)unused;
    return !is_vector(record);
}

/* Other readers take every entry for as long as one without a comment. */
static bool may_relate(const struct advance *advance, const struct chart_record *record)
{
    size_t length = list_length(record, "FFPT");
    return !advance->style->plain || (length > 0 && record->field[find_field(record, "FFPT")].content.length == FFPT_SIZE * length);
}

static void change_relations(struct advance *advance, struct chart_record *record, struct chart_record *said)
{
    bool plain = advance->style->plain;
    struct control control = any_edit((uint32_t)list_length(record, "FFPT"), plain ? 1 : 0, advance->random);
    struct buffer entries = {0};
    for (uint32_t count = control.count; count > 0; count--) {
        const struct chart_record *other = pick(advance, is_feature, NULL);
        buffer_put(&entries, other->field[2].content.bytes, 8);
        put_number(&entries, 1, random_between(advance->random, 2, 3));
        if (plain)
            put_text(&entries, "");
        else
            put_value_text(&entries, false, false, advance->random);
    }
    edit(record, said, "FFPC", "FFPT", control, &entries);
    buffer_free(&entries);
}

/* ---- boundaries */

static void put_spatial(struct buffer *entries, const uint8_t *name, uint8_t turn, uint8_t usage, uint8_t mask)
{
    const uint8_t rest[] = {turn, usage, mask};
    buffer_put(entries, name, NAME);
    buffer_put(entries, rest, sizeof rest);
}

static uint8_t one_or_two(const struct advance *advance)
{
    return (uint8_t)random_between(advance->random, 1, 2);
}

/* Soundings stay soundings: other readers show them as a class of their own. */
static bool is_node_like(const struct advance *advance, const struct chart_record *record, const void *wanted)
{
    uint8_t class = name_of_record(record)[0];
    const char *tag = wanted;
    return (class == 110 || class == 120) && (!advance->style->plain || list_length(record, tag) > 0);
}

static void change_point(struct advance *advance, struct chart_record *record, struct chart_record *said)
{
    const uint8_t *name = record->field[find_field(record, "FSPT")].content.bytes;
    const char *tag = coordinates_of(find_item(advance->model, FIRST_CELL_ITEM, name));
    struct buffer entries = {0};
    put_spatial(&entries, name_of_record(pick(advance, is_node_like, tag)), 255, 255, 255);
    edit(record, said, "FSPC", "FSPT", (struct control){MODIFY, 1, 1}, &entries);
    buffer_free(&entries);
}

static void change_line(struct advance *advance, struct chart_record *record, struct chart_record *said)
{
    struct control control = any_edit((uint32_t)list_length(record, "FSPT"), 1, advance->random);
    struct buffer entries = {0};
    for (uint32_t count = control.count; count > 0; count--)
        put_spatial(&entries, name_of_record(pick_class(advance, 130)), one_or_two(advance), 255, one_or_two(advance));
    edit(record, said, "FSPC", "FSPT", control, &entries);
    buffer_free(&entries);
}

static bool is_loop(const struct chart_record *edge)
{
    const uint8_t *ends = edge->field[find_field(edge, "VRPT")].content.bytes;
    return memcmp(ends, ends + VRPT_SIZE, NAME) == 0;
}

/* A hole more: a loop alone, or an edge forth and back. Or the mask of one edge changes. */
static void change_area(struct advance *advance, struct chart_record *record, struct chart_record *said)
{
    const struct chart_record *edge = pick_class(advance, 130);
    uint32_t length = (uint32_t)list_length(record, "FSPT");
    struct control control = {INSERT, length + 1, 1};
    struct buffer entries = {0};
    if (random_one_in(advance->random, 2)) {
        control = (struct control){MODIFY, random_between(advance->random, 1, length), 1};
        buffer_put(&entries, record->field[find_field(record, "FSPT")].content.bytes + FSPT_SIZE * (control.index - 1), FSPT_SIZE);
        entries.bytes[7] = entries.bytes[6] == 3 ? 255 : one_or_two(advance);
    } else {
        put_spatial(&entries, name_of_record(edge), 1, 2, one_or_two(advance));
        if (!is_loop(edge)) {
            put_spatial(&entries, name_of_record(edge), 2, 2, one_or_two(advance));
            control.count = 2;
        }
    }
    edit(record, said, "FSPC", "FSPT", control, &entries);
    buffer_free(&entries);
}

/* ---- what is done: each returns whether there was something to do it to */

static void change_vector(struct advance *advance, struct chart_record *record, struct chart_record *said)
{
    bool edge = name_of_record(record)[0] == 130;
    if (!advance->style->plain && random_one_in(advance->random, 2))
        change_attributes(advance, record, said, "ATTV", false);
    if (edge && random_one_in(advance->random, 2))
        change_ends(advance, record, said);
    change_coordinates(advance, record, said);
}

static void change_spatial(struct advance *advance, struct chart_record *record, struct chart_record *said)
{
    switch (primitive_of(record)) {
    case POINT:
        change_point(advance, record, said);
        break;
    case LINE:
        change_line(advance, record, said);
        break;
    case AREA:
        change_area(advance, record, said);
        break;
    default:
        break;
    }
}

static void change_feature(struct advance *advance, struct chart_record *record, struct chart_record *said)
{
    bool plain = advance->style->plain;
    if (random_one_in(advance->random, 2) && (!plain || list_length(record, "ATTF") > 0))
        change_attributes(advance, record, said, "ATTF", advance->high_attributes);
    if (!plain && random_one_in(advance->random, 3))
        change_attributes(advance, record, said, "NATF", advance->high_national);
    if (random_one_in(advance->random, 2) && may_relate(advance, record))
        change_relations(advance, record, said);
    if (random_one_in(advance->random, 2))
        change_spatial(advance, record, said);
}

static bool change_any(struct advance *advance)
{
    struct chart_record *record = pick(advance, may_change, NULL);
    if (record == NULL)
        return false;
    struct chart_record *said = change(advance, record);
    if (is_vector(record))
        change_vector(advance, record, said);
    else
        change_feature(advance, record, said);
    return true;
}

/* A record under a name and, for a feature, mostly a FOID that are free, with what another one has. Both charts get it. */
static struct chart_record *insert_like(struct advance *advance, const struct chart_record *like)
{
    const struct chart_pair both = {.cell = *advance->model, .update = advance->update};
    struct chart_record copy = copy_record(like);
    set_number(copy.field[1].content.bytes + 1, 4, free_id(&both, name_of_record(like)[0], advance->random));
    set_version(&copy, 1);
    *instruction_of(&copy) = INSERT;
    if (!is_vector(like) && (advance->style->plain || !random_one_in(advance->random, 4)))
        set_number(copy.field[2].content.bytes + 2, 4, random_between(advance->random, 1, UINT32_C(4294967294)));
    *add_record(&advance->model->list) = copy;
    touch(advance, &copy);
    return &advance->model->list.record[advance->model->list.count - 1];
}

/* Once the new record is as it shall be. */
static void say_insert(struct advance *advance, const struct chart_record *record)
{
    struct chart_record copy = copy_record(record);
    *add_record(&advance->update.list) = copy;
}

static bool any_item(const struct advance *advance, const struct chart_record *record, const void *unused)
{
    (void)advance;
    (void)record;
    (void)unused;
    return true;
}

static bool insert_any(struct advance *advance)
{
    const struct chart_record *like = pick(advance, any_item, NULL);
    if (like == NULL)
        return false;
    struct chart_record *record = insert_like(advance, like);
    if (name_of_record(record)[0] == 110 || name_of_record(record)[0] == 120) {
        struct buffer *content = &record->field[find_field(record, coordinates_of(record))].content, moved = {0};
        put_pair(advance, &moved);
        memcpy(content->bytes, moved.bytes, moved.length);
        buffer_free(&moved);
    }
    say_insert(advance, record);
    return true;
}

/* ---- records that go */

static bool has_relation(const struct chart_record *record, const uint8_t *object)
{
    size_t at = find_field(record, "FFPT"), entries = list_length(record, "FFPT");
    for (size_t i = 0; i < entries; i++)
        if (memcmp(record->field[at].content.bytes + entry_place(&record->field[at], i).start, object, 8) == 0)
            return true;
    return false;
}

/* Whether another record points to it. A FOID that several have is still there without it. */
static bool is_needed(const struct advance *advance, const struct chart_record *record)
{
    const uint8_t *name = name_of_record(record);
    bool related = false, again = false;
    for (size_t i = 0; i < items(advance); i++) {
        const struct chart_record *other = item_at(advance, i);
        if (other == record)
            continue;
        if (times_named(other, "VRPT", VRPT_SIZE, name) > 0 || times_named(other, "FSPT", FSPT_SIZE, name) > 0)
            return true;
        if (is_vector(record) || is_vector(other))
            continue;
        related = related || has_relation(other, record->field[2].content.bytes);
        again = again || memcmp(other->field[2].content.bytes, record->field[2].content.bytes, 8) == 0;
    }
    return related && !again;
}

static bool delete_any(struct advance *advance)
{
    struct chart_record *record = pick(advance, may_change, NULL);
    if (record == NULL || is_needed(advance, record))
        return false;
    touch(advance, record);
    say_change(&advance->update, record, version_of_record(record) + 1, DELETE, advance->random);
    remove_record(&advance->model->list, (size_t)(record - advance->model->list.record));
    return true;
}

/* ---- an edge split in two: a new node, a new edge from it, and in every line and area that has the old one the new one beside it */

static bool can_split(const struct advance *advance, const struct chart_record *record, const void *unused)
{
    if (name_of_record(record)[0] != 130 || !may_change(advance, record, unused))
        return false;
    for (size_t i = 0; i < items(advance); i++) {
        const struct chart_record *other = item_at(advance, i);
        size_t times = is_vector(other) ? 0 : times_named(other, "FSPT", FSPT_SIZE, name_of_record(record));
        if (times > 1 || (times == 1 && !may_change(advance, other, unused)))
            return false;
    }
    return true;
}

/* Along the edge the new one comes behind the old one, against it before. */
static void split_boundary(struct advance *advance, struct chart_record *feature, const uint8_t *old, const uint8_t *new)
{
    const uint8_t *entry = feature->field[find_field(feature, "FSPT")].content.bytes;
    struct control control = {INSERT, 1, 1};
    struct buffer entries = {0};
    for (; memcmp(entry, old, NAME) != 0; entry += FSPT_SIZE)
        control.index++;
    put_spatial(&entries, new, entry[5], entry[6], entry[7]);
    control.index += entry[5] == 1;
    edit(feature, change(advance, feature), "FSPC", "FSPT", control, &entries);
    buffer_free(&entries);
}

/* The edge's end becomes the node, and its coordinates from some place on go to the new edge. */
static void shorten(struct advance *advance, struct chart_record *edge, struct chart_record *rest, const uint8_t *node)
{
    struct chart_record *said = change(advance, edge);
    struct chart_field *ends = &edge->field[find_field(edge, "VRPT")], *others = &rest->field[find_field(rest, "VRPT")];
    uint32_t end = ends->content.bytes[7] == 2 ? 1 : 2, length = (uint32_t)list_length(edge, "SG2D");
    struct buffer entries = {0};
    buffer_put(&entries, node, NAME);
    buffer_put(&entries, ends->content.bytes + VRPT_SIZE * (end - 1) + NAME, VRPT_SIZE - NAME);
    memcpy(others->content.bytes + VRPT_SIZE * (2 - end), node, NAME);
    edit(edge, said, "VRPC", "VRPT", (struct control){MODIFY, end, 1}, &entries);
    if (length > 0) {
        uint32_t cut = random_between(advance->random, 1, length);
        edit(edge, said, "SGCC", "SG2D", (struct control){DELETE, cut, length - cut + 1}, &entries);
        if (cut > 1)
            remove_entries(rest, "SG2D", 1, cut - 1);
    }
    buffer_free(&entries);
}

static bool split_edge(struct advance *advance)
{
    uint8_t old[NAME], new[NAME], middle[NAME];
    const struct chart_record *chosen = pick(advance, can_split, NULL);
    if (chosen == NULL)
        return false;
    memcpy(old, name_of_record(chosen), NAME);
    struct chart_record *node = insert_like(advance, pick_class(advance, 120));
    memcpy(middle, name_of_record(node), NAME);
    say_insert(advance, node);
    struct chart_record *rest = insert_like(advance, find_item(advance->model, FIRST_CELL_ITEM, old));
    memcpy(new, name_of_record(rest), NAME);
    shorten(advance, find_item(advance->model, FIRST_CELL_ITEM, old), rest, middle);
    say_insert(advance, rest);
    for (size_t i = 0; i < items(advance); i++)
        if (has_edge(item_at(advance, i), old))
            split_boundary(advance, item_at(advance, i), old, new);
    return true;
}

/* ---- an update */

static void act(struct advance *advance)
{
    switch (random_below(advance->random, 8)) {
    case 0:
    case 1:
        insert_any(advance);
        break;
    case 2:
        delete_any(advance);
        break;
    case 3:
        split_edge(advance);
        break;
    default:
        change_any(advance);
    }
}

/* The model's edition, and the number after its own. */
static struct numbering next_numbering(const struct chart *model, struct random *random)
{
    const struct chart_field *dsid = &model->list.record[1].field[1];
    const char *edition = (const char *)dsid->content.bytes + subfield_place(dsid, 0, "EDTN").start;
    const char *number = (const char *)dsid->content.bytes + subfield_place(dsid, 0, "UPDN").start;
    struct numbering numbering = any_numbering(random);
    numbering.edition = (uint32_t)strtoul(edition, NULL, 10);
    numbering.number = (uint32_t)strtoul(number, NULL, 10) + 1;
    return numbering;
}

/* Other readers compare EDTN as it is spelt. */
static void spell_alike(struct chart *update, const struct chart *model)
{
    struct chart_field *said = &update->list.record[1].field[1];
    const struct chart_field *held = &model->list.record[1].field[1];
    struct place place = subfield_place(held, 0, "EDTN");
    replace_bytes(&said->content, subfield_place(said, 0, "EDTN"), held->content.bytes + place.start, place.length);
}

struct chart next_update(struct chart *model, const struct step_style *style, struct random *random)
{
    const struct chart_field *parameters = &model->list.record[2].field[1];
    const uint8_t *levels = model->list.record[1].field[2].content.bytes + 1;
    struct advance advance = {.model = model, .random = random, .style = style, .high_attributes = levels[0] == 1, .high_national = levels[1] == 1};
    struct numbering numbering = next_numbering(model, random);
    advance.comf = (int32_t)get_number(parameters->content.bytes + subfield_place(parameters, 0, "COMF").start, 4);
    advance.update = start_update(model, &numbering, random);
    if (style->plain)
        spell_alike(&advance.update, model);
    for (uint32_t left = style->actions; left > 0; left--)
        act(&advance);
    number_after(model, &numbering);
    count_records(model);
    arrange(&advance.update, random);
    buffer_free(&advance.touched);
    return advance.update;
}
