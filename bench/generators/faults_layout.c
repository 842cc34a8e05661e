/* The section "Records" broken: code 5, at the first field that is wrong or at the end where one is missing. */
#include "generate_chart.h"

#include <stdlib.h>
#include <string.h>

enum { UNIT_END = 0x1F };

/* ---- tools */

static bool wrong_field(struct fault *fault, size_t record, size_t field)
{
    *fault = (struct fault){.code = CODE_LAYOUT, .record = record, .spot = AT_BYTE, .field = field};
    return true;
}

static bool missing_at_end(struct fault *fault, size_t record)
{
    *fault = (struct fault){.code = CODE_LAYOUT, .record = record, .spot = AT_RECORD_END};
    return true;
}

/* A field is missing where `field` is now: the one that stands there is wrong, or it is the record's end. */
static bool missing_before(struct fault *fault, const struct chart *chart, size_t record, size_t field)
{
    return field < chart->list.record[record].count ? wrong_field(fault, record, field) : missing_at_end(fault, record);
}

static struct chart_record *record_at(struct chart *chart, size_t index)
{
    return &chart->list.record[index];
}

static size_t first_item(const struct chart *chart)
{
    return chart->update ? 2 : 3;
}

static bool is_item(const struct chart *chart, size_t record)
{
    return record >= first_item(chart);
}

/* Any vector or feature. */
static bool pick_item(const struct chart *chart, struct random *random, size_t *record)
{
    size_t first = first_item(chart);
    if (chart->list.count <= first)
        return false;
    *record = random_between(random, (uint32_t)first, (uint32_t)chart->list.count - 1);
    return true;
}

static bool is_vector(const struct chart *chart, size_t record)
{
    return has_tag(&chart->list.record[record].field[1], "VRID");
}

static size_t any_after_zero(const struct chart *chart, struct random *random)
{
    return random_between(random, 1, (uint32_t)chart->list.count - 1);
}

/* Declares a tag that record 0 didn't, as another field of it. */
static void declare(struct chart *chart, const char *tag, struct random *random)
{
    struct chart_record *zero = &chart->list.record[0];
    if (find_field(zero, tag) < zero->count)
        return;
    struct chart one = {0};
    add_record(&one.list);
    describe_chart(&one, true, random);
    struct chart_record *all = &one.list.record[0];
    size_t at = find_field(all, tag);
    if (at == all->count) {
        one.update = true;
        describe_chart(&one, true, random);
        at = find_field(all, tag);
    }
    struct buffer content = all->field[at].content;
    all->field[at].content = (struct buffer){0};
    add_field(zero, tag)->content = content;
    chart_free(&one);
}

/* A field that is filled as its tag wants, of a tag that stands elsewhere. */
static void put_any_content(struct buffer *content, const char *tag)
{
    const struct tag_row *row = row_of_tag(tag);
    for (size_t i = 0; i < row->count; i++) {
        unsigned width = format_width(row->subfield[i].format);
        if (width == 0)
            put_text(content, "7");
        else
            memset(buffer_more(content, width), 1, width);
    }
}

/* A filled and declared field put where its tag has no place. */
static bool put_wrong(struct chart *chart, size_t record, size_t at, const char *tag, struct random *random, struct fault *fault)
{
    declare(chart, tag, random);
    put_any_content(&insert_field(record_at(chart, record), at, tag)->content, tag);
    return wrong_field(fault, record, at);
}

/* ---- records missing */

static bool break_file_ends(struct chart *chart, size_t way, struct random *random, struct fault *fault)
{
    size_t kept = chart->update ? 1 : random_between(random, 1, 2);
    (void)way;
    while (chart->list.count > kept)
        remove_record(&chart->list, chart->list.count - 1);
    *fault = (struct fault){.code = CODE_LAYOUT, .record = kept, .spot = AT_FILE_END};
    return true;
}

static bool break_header_missing(struct chart *chart, size_t way, struct random *random, struct fault *fault)
{
    (void)way;
    (void)random;
    remove_record(&chart->list, 1);
    if (chart->update && chart->list.count < 2) {
        *fault = (struct fault){.code = CODE_LAYOUT, .record = 1, .spot = AT_FILE_END};
        return true;
    }
    return wrong_field(fault, 1, 1);
}

static bool break_parameters_missing(struct chart *chart, size_t way, struct random *random, struct fault *fault)
{
    (void)way;
    (void)random;
    remove_record(&chart->list, 2);
    if (chart->list.count == 2) {
        *fault = (struct fault){.code = CODE_LAYOUT, .record = 2, .spot = AT_FILE_END};
        return true;
    }
    return wrong_field(fault, 2, 1);
}

/* The DSID or DSPM record once more, at any later place. */
static bool break_header_again(struct chart *chart, size_t way, struct random *random, struct fault *fault)
{
    (void)way;
    size_t which = chart->update ? 1 : random_between(random, 1, 2);
    size_t at = random_between(random, chart->update ? 2 : (uint32_t)which + 1, (uint32_t)chart->list.count);
    struct chart_record copy = copy_record(record_at(chart, which));
    *insert_record(&chart->list, at) = copy;
    return wrong_field(fault, at, 1);
}

static bool break_parameters_in_update(struct chart *chart, size_t way, struct random *random, struct fault *fault)
{
    (void)way;
    declare(chart, "DSPM", random);
    size_t at = random_between(random, 2, (uint32_t)chart->list.count);
    struct chart_record *record = insert_record(&chart->list, at);
    put_number(&add_field(record, "0001")->content, 2, 2);
    put_any_content(&add_field(record, "DSPM")->content, "DSPM");
    return wrong_field(fault, at, 1);
}

/* ---- fields missing */

static bool break_record_name(struct chart *chart, size_t way, struct random *random, struct fault *fault)
{
    size_t record = any_after_zero(chart, random);
    (void)way;
    if (random_one_in(random, 3) && record_at(chart, record)->count > 1) {
        struct chart_field *field = record_at(chart, record)->field, kept = field[0];
        field[0] = field[1];
        field[1] = kept;
    } else {
        remove_field(record_at(chart, record), 0);
        if (record_at(chart, record)->count == 0)
            return false;
    }
    return wrong_field(fault, record, 0);
}

static bool break_required(struct chart *chart, size_t way, struct random *random, struct fault *fault)
{
    static const char *const required[] = {"DSID", "DSSI", "DSPM", "VRID", "FRID", "FOID"};
    size_t record, field;
    (void)way;
    if (!pick_field(chart, required[random_below(random, sizeof required / sizeof required[0])], random, &record, &field))
        return false;
    remove_field(record_at(chart, record), field);
    return missing_before(fault, chart, record, field);
}

/* A record of 0001 alone. */
static bool break_bare(struct chart *chart, size_t way, struct random *random, struct fault *fault)
{
    size_t record = random_between(random, (uint32_t)first_item(chart), (uint32_t)chart->list.count);
    (void)way;
    put_number(&add_field(insert_record(&chart->list, record), "0001")->content, 2, 1);
    return missing_at_end(fault, record);
}

/* ---- fields too many or out of place */

static bool break_swapped(struct chart *chart, size_t way, struct random *random, struct fault *fault)
{
    size_t record = any_after_zero(chart, random);
    struct chart_record *fields = record_at(chart, record);
    (void)way;
    if (fields->count < 2)
        return false;
    size_t at = random_below(random, (uint32_t)fields->count - 1);
    struct chart_field kept = fields->field[at];
    if (memcmp(kept.tag, fields->field[at + 1].tag, sizeof kept.tag) == 0)
        return false;
    fields->field[at] = fields->field[at + 1];
    fields->field[at + 1] = kept;
    /* a list put before its neighbour is where it may be; then the neighbour comes too late. A required field is due where it stood. */
    bool due = has_tag(&kept, "0001") || has_tag(&kept, "DSID") || has_tag(&kept, "VRID") || has_tag(&kept, "FRID") || has_tag(&kept, "FOID");
    return wrong_field(fault, record, due ? at : at + 1);
}

static bool break_once(struct chart *chart, size_t way, struct random *random, struct fault *fault)
{
    static const char *const once[] = {"0001", "DSID", "DSSI", "DSPM", "VRID", "FRID", "FOID"};
    size_t record, field;
    (void)way;
    if (!pick_field(chart, once[random_below(random, sizeof once / sizeof once[0])], random, &record, &field))
        return false;
    struct chart_record *fields = record_at(chart, record);
    struct chart_field *copy = insert_field(fields, field + 1, NULL), *from = &fields->field[field];
    memcpy(copy->tag, from->tag, sizeof copy->tag);
    buffer_put(&copy->content, from->content.bytes, from->content.length);
    return wrong_field(fault, record, field + 1);
}

/* A tag of the other kind of record, at the end of one that is right. */
static bool break_foreign(struct chart *chart, size_t way, struct random *random, struct fault *fault)
{
    static const char *const of_features[] = {"FRID", "FOID", "ATTF", "NATF", "FFPT", "FSPT"};
    static const char *const of_vectors[] = {"VRID", "ATTV", "VRPT", "SG2D", "SG3D"};
    static const char *const of_header[] = {"DSID", "DSSI", "DSPM"};
    size_t record = any_after_zero(chart, random);
    (void)way;
    const char *tag;
    if (!is_item(chart, record))
        tag = random_one_in(random, 2) ? of_features[random_below(random, 6)] : of_vectors[random_below(random, 5)];
    else if (random_one_in(random, 3))
        tag = of_header[random_below(random, 3)];
    else
        tag = is_vector(chart, record) ? of_features[random_below(random, 6)] : of_vectors[random_below(random, 5)];
    size_t end = record_at(chart, record)->count;
    size_t at = is_item(chart, record) ? random_between(random, is_vector(chart, record) ? 2 : 3, (uint32_t)end) : end;
    return put_wrong(chart, record, at, tag, random, fault);
}

/* Tags that are in no table, or 0000, anywhere in any record. */
static bool break_strange(struct chart *chart, size_t way, struct random *random, struct fault *fault)
{
    static const char *const strange[] = {"0000", "0002", "ATTX", "dsid", "SG4D", "\x1e\x1e\x1e\x1e", "VRI\x1f", "ARCC", "    ", "\xff\xff\xff\xff"};
    size_t record = any_after_zero(chart, random);
    (void)way;
    size_t at = random_below(random, (uint32_t)record_at(chart, record)->count + 1);
    struct chart_field *field = insert_field(record_at(chart, record), at, strange[random_below(random, sizeof strange / sizeof strange[0])]);
    put_number(&field->content, 2, 1);
    return wrong_field(fault, record, at);
}

/* A list's field once more, after a list that comes later. */
static bool break_not_side_by_side(struct chart *chart, size_t way, struct random *random, struct fault *fault)
{
    static const char *const pair[][2] = {{"ATTV", "VRPT"}, {"ATTV", "SG2D"}, {"VRPT", "SG2D"}, {"ATTV", "SG3D"}, {"ATTF", "NATF"},
                                          {"ATTF", "FFPT"}, {"ATTF", "FSPT"}, {"NATF", "FSPT"}, {"FFPT", "FSPT"}};
    size_t record, field;
    (void)way;
    const char *const *chosen = pair[random_below(random, sizeof pair / sizeof pair[0])];
    if (!pick_field(chart, chosen[1], random, &record, &field))
        return false;
    return put_wrong(chart, record, field + 1, chosen[0], random, fault);
}

static bool break_both_coordinates(struct chart *chart, size_t way, struct random *random, struct fault *fault)
{
    size_t record, field;
    bool pairs_first = random_one_in(random, 2);
    (void)way;
    if (!pick_field(chart, pairs_first ? "SG2D" : "SG3D", random, &record, &field))
        return false;
    size_t end = record_at(chart, record)->count;
    return put_wrong(chart, record, end, pairs_first ? "SG3D" : "SG2D", random, fault);
}

static bool break_vector_after_feature(struct chart *chart, size_t way, struct random *random, struct fault *fault)
{
    size_t vector, feature, field;
    (void)way;
    if (!pick_field(chart, "VRID", random, &vector, &field) || !pick_field(chart, "FRID", random, &feature, &field))
        return false;
    struct chart_record copy = copy_record(record_at(chart, vector));
    *insert_record(&chart->list, feature + 1) = copy;
    return wrong_field(fault, feature + 1, 1);
}

static bool break_two_identifiers(struct chart *chart, size_t way, struct random *random, struct fault *fault)
{
    size_t record;
    (void)way;
    if (!pick_item(chart, random, &record))
        return false;
    return put_wrong(chart, record, 2, is_vector(chart, record) ? "FRID" : "VRID", random, fault);
}

/* ---- controls */

static const char *const controls[][2] = {{"VRPC", "VRPT"}, {"SGCC", "SG2D"}, {"SGCC", "SG3D"}, {"FFPC", "FFPT"}, {"FSPC", "FSPT"}};

/* Where it would be right in an update. */
static bool break_control_in_cell(struct chart *chart, size_t way, struct random *random, struct fault *fault)
{
    size_t record, field, which = random_below(random, 5);
    (void)way;
    if (!pick_field(chart, controls[which][1], random, &record, &field))
        return false;
    field = find_field(record_at(chart, record), controls[which][1]);
    return put_wrong(chart, record, field, controls[which][0], random, fault);
}

static bool break_control_after_list(struct chart *chart, size_t way, struct random *random, struct fault *fault)
{
    size_t record, field, which = random_below(random, 5);
    (void)way;
    if (!pick_field(chart, controls[which][1], random, &record, &field))
        return false;
    return put_wrong(chart, record, field + 1, controls[which][0], random, fault);
}

static bool break_control_twice(struct chart *chart, size_t way, struct random *random, struct fault *fault)
{
    size_t record, field, which = random_below(random, 5);
    (void)way;
    if (!pick_field(chart, controls[which][0], random, &record, &field))
        return false;
    return put_wrong(chart, record, field + 1, controls[which][0], random, fault);
}

/* Of another record's lists, or before the attributes. */
static bool break_control_misplaced(struct chart *chart, size_t way, struct random *random, struct fault *fault)
{
    size_t record, field;
    (void)way;
    if (random_one_in(random, 2)) {
        static const char *const lists[][2] = {{"ATTV", "VRPC"}, {"ATTV", "SGCC"}, {"ATTF", "FFPC"}, {"NATF", "FSPC"}, {"VRPT", "SGCC"}};
        uint32_t which = random_below(random, 5);
        if (!pick_field(chart, lists[which][0], random, &record, &field))
            return false;
        field = find_field(record_at(chart, record), lists[which][0]);
        declare(chart, lists[which][1], random);
        put_any_content(&insert_field(record_at(chart, record), field, lists[which][1])->content, lists[which][1]);
        return wrong_field(fault, record, field + 1);
    }
    if (!pick_item(chart, random, &record))
        return false;
    uint32_t which = random_below(random, 2);
    const char *tag = is_vector(chart, record) ? (which ? "FFPC" : "FSPC") : (which ? "VRPC" : "SGCC");
    return put_wrong(chart, record, record_at(chart, record)->count, tag, random, fault);
}

/* ---- undeclared */

static bool break_undeclared(struct chart *chart, size_t way, struct random *random, struct fault *fault)
{
    struct chart_record *zero = record_at(chart, 0);
    (void)way;
    size_t which = random_between(random, 2, (uint32_t)zero->count - 1);
    char tag[4];
    memcpy(tag, zero->field[which].tag, sizeof tag);
    remove_field(zero, which);
    for (size_t record = 1; record < chart->list.count; record++) {
        size_t field = find_field(record_at(chart, record), tag);
        if (field < record_at(chart, record)->count)
            return wrong_field(fault, record, field);
    }
    return false;
}

/* ---- not filled */

/* A field of a random tag: those that stand once in a file come up as often as the others. */
static bool pick_any_tag(const struct chart *chart, struct random *random, size_t *record, size_t *field)
{
    return pick_field(chart, tag_rows[random_below(random, TAGS)].tag, random, record, field);
}

static bool is_fixed(const struct tag_row *row)
{
    for (size_t i = 0; i < row->count; i++)
        if (format_width(row->subfield[i].format) == 0)
            return false;
    return true;
}

static bool break_too_short(struct chart *chart, size_t way, struct random *random, struct fault *fault)
{
    size_t record, field;
    (void)way;
    if (!pick_any_tag(chart, random, &record, &field))
        return false;
    struct chart_field *chosen = &record_at(chart, record)->field[field];
    struct place last = entry_place(chosen, count_entries(chosen) - 1);
    /* the last group loses some of its end, its first byte never: a shorter list of whole groups would be right */
    chosen->content.length -= random_between(random, 1, (uint32_t)last.length - 1);
    return wrong_field(fault, record, field);
}

static bool break_too_long(struct chart *chart, size_t way, struct random *random, struct fault *fault)
{
    size_t record, field;
    (void)way;
    if (!pick_any_tag(chart, random, &record, &field))
        return false;
    struct chart_field *chosen = &record_at(chart, record)->field[field];
    const struct tag_row *row = row_of_tag(chosen->tag);
    size_t group = entry_place(chosen, 0).length;
    /* fewer bytes than another group needs, and no 1F among them; without texts in it a field that doesn't repeat takes none at all */
    uint32_t most = row->repeats ? (is_fixed(row) ? (uint32_t)group - 1 : 2) : 20;
    for (uint32_t count = random_between(random, 1, most); count > 0; count--)
        *buffer_more(&chosen->content, 1) = random_one_in(random, 2) ? 0 : 'A';
    return wrong_field(fault, record, field);
}

static bool break_empty(struct chart *chart, size_t way, struct random *random, struct fault *fault)
{
    size_t record, field;
    (void)way;
    if (!pick_any_tag(chart, random, &record, &field))
        return false;
    record_at(chart, record)->field[field].content.length = 0;
    return wrong_field(fault, record, field);
}

/* An empty list field beside full ones of its tag. */
static bool break_empty_repeat(struct chart *chart, size_t way, struct random *random, struct fault *fault)
{
    size_t record, field;
    (void)way;
    if (!pick_any_tag(chart, random, &record, &field))
        return false;
    struct chart_record *fields = record_at(chart, record);
    const struct tag_row *row = row_of_tag(fields->field[field].tag);
    if (!row->repeats)
        return false;
    field += random_below(random, 2);
    insert_field(fields, field, row->tag);
    return wrong_field(fault, record, field);
}

/* The 1F of a field's last text goes, or is some other byte. */
static bool break_unclosed_text(struct chart *chart, size_t way, struct random *random, struct fault *fault)
{
    static const char *const tags[] = {"DSID", "DSPM", "ATTV", "ATTF", "NATF", "FFPT"};
    size_t record, field;
    (void)way;
    if (!pick_field(chart, tags[random_below(random, 6)], random, &record, &field))
        return false;
    struct buffer *content = &record_at(chart, record)->field[field].content;
    if (random_one_in(random, 2))
        content->length--;
    else
        content->bytes[content->length - 1] = random_one_in(random, 2) ? 0x1E : ' ';
    return wrong_field(fault, record, field);
}

/* A 1F within a text closes it: what follows doesn't fit. */
static bool break_early_unit_end(struct chart *chart, size_t way, struct random *random, struct fault *fault)
{
    static const char *const subfields[][2] = {{"DSPM", "COMT"}, {"DSID", "COMT"}, {"ATTV", "ATVL"}, {"ATTF", "ATVL"}, {"FFPT", "COMT"}};
    size_t record, field;
    (void)way;
    const char *const *chosen = subfields[random_below(random, 5)];
    if (!pick_field(chart, chosen[0], random, &record, &field))
        return false;
    struct chart_field *text = &record_at(chart, record)->field[field];
    struct place place = subfield_place(text, count_entries(text) - 1, chosen[1]);
    const uint8_t tail[] = {UNIT_END, 'x', 'y', UNIT_END};
    bool list = row_of_tag(text->tag)->repeats;
    /* in a list one byte is left over, which is too short for a group */
    place.length++;
    replace_bytes(&text->content, place, tail, list ? 2 : 4);
    return wrong_field(fault, record, field);
}

static bool break_not_filled_number(struct chart *chart, size_t way, struct random *random, struct fault *fault)
{
    size_t record = any_after_zero(chart, random);
    struct buffer *content = &record_at(chart, record)->field[0].content;
    (void)way;
    static const uint8_t lengths[] = {0, 1, 3, 4, 5};
    size_t length = lengths[random_below(random, sizeof lengths)];
    content->length = 0;
    memset(buffer_more(content, length + 1), 1, length + 1);
    content->length = length;
    return wrong_field(fault, record, 0);
}

static const struct chart_rule rules[] = {
    {"layout: the file ends where a record is due", break_file_ends, 0, IN_BOTH},
    {"layout: no record of DSID", break_header_missing, 0, IN_BOTH},
    {"layout: no record of DSPM", break_parameters_missing, 0, IN_CELL},
    {"layout: the record of DSID or DSPM again", break_header_again, 0, IN_BOTH},
    {"layout: DSPM in an update", break_parameters_in_update, 0, IN_UPDATE},
    {"layout: 0001 not first", break_record_name, 0, IN_BOTH},
    {"layout: a required field missing", break_required, 0, IN_BOTH},
    {"layout: a record of 0001 alone", break_bare, 0, IN_BOTH},
    {"layout: neighbours swapped", break_swapped, 0, IN_BOTH},
    {"layout: a single field twice", break_once, 0, IN_BOTH},
    {"layout: a field of another kind of record", break_foreign, 0, IN_BOTH},
    {"layout: a strange tag", break_strange, 0, IN_BOTH},
    {"layout: repeats not side by side", break_not_side_by_side, 0, IN_BOTH},
    {"layout: SG2D beside SG3D", break_both_coordinates, 0, IN_BOTH},
    {"layout: a vector after a feature", break_vector_after_feature, 0, IN_BOTH},
    {"layout: VRID and FRID in one record", break_two_identifiers, 0, IN_BOTH},
    {"layout: a control in a cell", break_control_in_cell, 0, IN_CELL},
    {"layout: a control after its list", break_control_after_list, 0, IN_UPDATE},
    {"layout: a control twice", break_control_twice, 0, IN_UPDATE},
    {"layout: a control misplaced", break_control_misplaced, 0, IN_UPDATE},
    {"layout: a tag not declared", break_undeclared, 0, IN_BOTH},
    {"layout: a field too short", break_too_short, 0, IN_BOTH},
    {"layout: a field too long", break_too_long, 0, IN_BOTH},
    {"layout: an empty field", break_empty, 0, IN_BOTH},
    {"layout: an empty repeat of a list", break_empty_repeat, 0, IN_BOTH},
    {"layout: a text without 1F", break_unclosed_text, 0, IN_BOTH},
    {"layout: a 1F within a text", break_early_unit_end, 0, IN_BOTH},
    {"layout: 0001 not of two bytes", break_not_filled_number, 0, IN_BOTH},
};

const struct rule_set layout_faults = {rules, sizeof rules / sizeof rules[0]};
