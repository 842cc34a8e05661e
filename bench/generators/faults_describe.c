/* Record 0's rule broken: always code 4 at record 0. */
#include "generate_chart.h"

#include <string.h>

enum { UNIT_END = 0x1F, CONTROLS = 9 };

static bool described(struct fault *fault)
{
    *fault = (struct fault){.code = CODE_DESCRIBED, .record = 0, .spot = AT_RECORD};
    return true;
}

static void swap_fields(struct chart_record *record, size_t left, size_t right)
{
    struct chart_field kept = record->field[left];
    record->field[left] = record->field[right];
    record->field[right] = kept;
}

/* A descriptive field of the table's tags, 0001 included. */
static struct chart_field *any_description(struct chart *chart, struct random *random)
{
    struct chart_record *record = &chart->list.record[0];
    return &record->field[random_between(random, 1, (uint32_t)record->count - 1)];
}

/* The three parts of a descriptive field. */
struct parts {
    struct place name, labels, formats;
};

static struct parts parts_of(const struct chart_field *field)
{
    const uint8_t *bytes = field->content.bytes;
    size_t name_end = CONTROLS, labels_end;
    while (bytes[name_end] != UNIT_END)
        name_end++;
    labels_end = name_end + 1;
    while (bytes[labels_end] != UNIT_END)
        labels_end++;
    return (struct parts){
        {CONTROLS, name_end - CONTROLS},
        {name_end + 1, labels_end - name_end - 1},
        {labels_end + 1, field->content.length - labels_end - 1},
    };
}

/* ---- which fields */

static bool break_first(struct chart *chart, size_t way, struct random *random, struct fault *fault)
{
    struct chart_record *record = &chart->list.record[0];
    (void)way;
    switch (random_below(random, 4)) {
    case 0:
        remove_field(record, 0);
        break;
    case 1:
        swap_fields(record, 0, 1);
        break;
    case 2:
        memcpy(record->field[0].tag, random_one_in(random, 2) ? "0002" : "000\0", 4);
        break;
    default:
        if (record->count < 3)
            return false;
        swap_fields(record, 0, 2);
    }
    return described(fault);
}

static bool break_second(struct chart *chart, size_t way, struct random *random, struct fault *fault)
{
    struct chart_record *record = &chart->list.record[0];
    (void)way;
    switch (random_below(random, 3)) {
    case 0:
        remove_field(record, 1);
        break;
    case 1:
        while (record->count > 1)
            remove_field(record, record->count - 1);
        break;
    default:
        if (record->count < 3)
            return false;
        swap_fields(record, 1, random_between(random, 2, (uint32_t)record->count - 1));
    }
    return described(fault);
}

static bool break_declared_twice(struct chart *chart, size_t way, struct random *random, struct fault *fault)
{
    struct chart_record *record = &chart->list.record[0];
    (void)way;
    size_t which = random_below(random, (uint32_t)record->count);
    size_t at = random_between(random, which < 2 ? 2 : (uint32_t)which + 1, (uint32_t)record->count);
    struct chart_field *copy = insert_field(record, at, NULL), *from = &record->field[which];
    memcpy(copy->tag, from->tag, sizeof copy->tag);
    buffer_put(&copy->content, from->content.bytes, from->content.length);
    return described(fault);
}

/* Tags that S-57 has but the table hasn't, and such that no file has. */
static bool break_unknown_tag(struct chart *chart, size_t way, struct random *random, struct fault *fault)
{
    static const char *const unknown[] = {"CATD", "DSPR", "DSRC", "DSHT", "DSAC", "CATX", "DDDF", "ARCC", "AR2D", "EL2D", "CT2D", "0002",
                                          "dsid", "DSI ", " DSID", "VRI\x1e", "VR\x1f\x44", "\x1e\x1e\x1e\x1e", "FSPU", "GSPT", "TSID", "\0\0\0"};
    struct chart_record *record = &chart->list.record[0];
    (void)way;
    const char *tag = unknown[random_below(random, sizeof unknown / sizeof unknown[0])];
    struct chart_field *from = any_description(chart, random);
    if (random_one_in(random, 2) && from != &record->field[1]) {
        memcpy(from->tag, tag, 4);
        return described(fault);
    }
    struct buffer kept = {0};
    buffer_put(&kept, from->content.bytes, from->content.length);
    insert_field(record, random_between(random, 2, (uint32_t)record->count), tag)->content = kept;
    return described(fault);
}

/* ---- the cut */

static bool break_cut(struct chart *chart, size_t way, struct random *random, struct fault *fault)
{
    struct chart_field *field = any_description(chart, random);
    struct parts parts = parts_of(field);
    (void)way;
    switch (random_below(random, 5)) {
    case 0:
        field->content.length = random_below(random, CONTROLS + 1);
        break;
    case 1:
        buffer_remove(&field->content, parts.labels.start - 1, 1);
        break;
    case 2:
        buffer_remove(&field->content, parts.formats.start - 1, 1);
        break;
    case 3:
        *buffer_open(&field->content, parts.formats.start, 1) = UNIT_END;
        break;
    default:
        /* the name's bytes count as labels then */
        *buffer_open(&field->content, CONTROLS, 1) = UNIT_END;
        if (parts.name.length == 0 && parts.labels.length == 0)
            return false;
    }
    return described(fault);
}

/* ---- labels */

static bool change_label_byte(struct buffer *content, struct place labels, struct random *random)
{
    if (labels.length == 0)
        return false;
    uint8_t *byte = content->bytes + labels.start + random_below(random, (uint32_t)labels.length);
    switch (random_below(random, 3)) {
    case 0:
        *byte ^= 0x20;
        break;
    case 1:
        *byte = '!' == *byte ? ',' : '!';
        break;
    default:
        *byte = *byte == 'X' ? 'Y' : 'X';
    }
    return true;
}

static bool break_labels(struct chart *chart, size_t way, struct random *random, struct fault *fault)
{
    static const char *const extra[] = {"!", "*", " ", "!COMT", "A", "\\\\"};
    struct chart_field *field = any_description(chart, random);
    struct place labels = parts_of(field).labels;
    const char *more = extra[random_below(random, sizeof extra / sizeof extra[0])];
    (void)way;
    switch (random_below(random, 4)) {
    case 0:
        if (!change_label_byte(&field->content, labels, random))
            return false;
        break;
    case 1:
        memcpy(buffer_open(&field->content, labels.start + (random_one_in(random, 2) ? labels.length : 0), strlen(more)), more, strlen(more));
        break;
    case 2:
        if (labels.length == 0)
            return false;
        buffer_remove(&field->content, labels.start + (random_one_in(random, 2) ? 0 : labels.length - 1), 1);
        break;
    default:
        if (labels.length == 0)
            return false;
        buffer_remove(&field->content, labels.start, labels.length);
    }
    return described(fault);
}

/* ---- formats: written out to something else, or not at all */

static void set_formats(struct chart_field *field, const char *text)
{
    replace_bytes(&field->content, parts_of(field).formats, text, strlen(text));
}

static bool break_formats(struct chart *chart, size_t way, struct random *random, struct fault *fault)
{
    static const char *const other[] = {"b11", "b14", "b12", "A", "A(8)", "R(4)", "B(40)", "B(64)", "b24", "I", "b13", "b22", "R", "B", "A(1)"};
    struct chart_field *field = any_description(chart, random);
    const struct tag_row *row = row_of_tag(field->tag);
    struct tag_row wrong = *row;
    (void)way;
    uint32_t at = random_below(random, (uint32_t)row->count);
    switch (random_below(random, 3)) {
    case 0:
        wrong.subfield[at].format = other[random_below(random, sizeof other / sizeof other[0])];
        if (strcmp(wrong.subfield[at].format, row->subfield[at].format) == 0)
            return false;
        break;
    case 1:
        if (row->count == 1)
            return false;
        wrong.count--;
        break;
    default:
        if (row->count == MOST_SUBFIELDS)
            return false;
        wrong.subfield[wrong.count++].format = other[random_below(random, sizeof other / sizeof other[0])];
    }
    struct buffer text = {0};
    put_formats_text(&text, &wrong, random_one_in(random, 2), random);
    replace_bytes(&field->content, parts_of(field).formats, text.bytes, text.length);
    buffer_free(&text);
    return described(fault);
}

/* Lists that no reading would take, in place of a list that they resemble. */
static bool break_format_text(struct chart *chart, size_t way, struct random *random, struct fault *fault)
{
    static const char *const of_record_name[] = {"b12", "(b12", "b12)", "((b12)", "(b12))", "()", "", "(b12,)", "(,b12)", "(0b12)", "(01b12)",
                                                 "1(b12)", "(b 12)", "(b12) ", "(((((b12)))))", "(b012)", "(b12(1))", "(b1)", "(2(),b12)", "[b12]"};
    static const char *const of_attributes[] = {"(b12;A)", "(b12,A()", "(b12,A())", "(b12,A(0))", "(b12 ,A)", "(b12,,A)", "(b12A)", "(b12,A),",
                                                "(b12,100A)", "(b12,(A)", "(b12),(A)", "(b12,0A)"};
    struct chart_record *record = &chart->list.record[0];
    size_t attributes = find_field(record, "ATTF");
    (void)way;
    if (attributes < record->count && random_one_in(random, 2))
        set_formats(&record->field[attributes], of_attributes[random_below(random, sizeof of_attributes / sizeof of_attributes[0])]);
    else
        set_formats(&record->field[1], of_record_name[random_below(random, sizeof of_record_name / sizeof of_record_name[0])]);
    return described(fault);
}

static const struct chart_rule rules[] = {
    {"described: 0000 not first", break_first, 0, IN_BOTH},
    {"described: 0001 not second", break_second, 0, IN_BOTH},
    {"described: a tag twice", break_declared_twice, 0, IN_BOTH},
    {"described: a tag not of the table", break_unknown_tag, 0, IN_BOTH},
    {"described: not cut by two 1F", break_cut, 0, IN_BOTH},
    {"described: labels", break_labels, 0, IN_BOTH},
    {"described: other formats", break_formats, 0, IN_BOTH},
    {"described: no format list", break_format_text, 0, IN_BOTH},
};

const struct rule_set describe_faults = {rules, sizeof rules / sizeof rules[0]};
