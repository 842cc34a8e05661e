/* The rules under "Values" broken: code 6, at the first byte of the subfield that is wrong. */
#include "generate_chart.h"

#include <stdlib.h>
#include <string.h>

enum { UNIT_END = 0x1F, REMOVED = 0x7F };

static bool wrong_value(struct fault *fault, size_t record, size_t field, size_t byte)
{
    *fault = (struct fault){.code = CODE_VALUE, .record = record, .spot = AT_BYTE, .field = field, .byte = byte};
    return true;
}

/* ---- one subfield given a value that no such subfield may have */

/* Values are parted by a bar: numbers in digits, texts as they are. In texts # stands for the digit of INTU and % for another one. */
static const struct bad {
    const char *tag, *label, *values;
} bads[] = {
    {"DSID", "RCNM", "0|9|11|20|100|110|255"},
    {"DSID", "RCID", "0|4294967295"},
    {"DSID", "EXPP", "0|2|3|255"},
    {"DSID", "EXPP", "0|1|3|255"},
    {"DSID", "INTU", "0|7|8|49|255|128"},
    {"DSID", "DSNM", "|GB#X01NE.00|GB#X01NE.0000|GB#X01NE|GB%X01NE.000|gb#X01NE.000|GB#x01NE.000|GB#X01N.000|GB#X01NE,000|GB#X01NE.00O|"
                     "GB#X01NE.001|GB#X01NE.100| B#X01NE.000|GB#X01N_.000|GB#X01NE.00 |GB0X01NE.000|GBX#01NE.000|GB#X01NEE000|G[#X01NE.000|"
                     "GB#X01N@.000|GB#X01N:.000|GB#X01NE./00|/B#X01NE.000|`B#X01NE.000|\xC1""B#X01NE.000"},
    {"DSID", "DSNM", "|GB#X01NE.00|GB#X01NE.0001|GB%X01NE.001|GB#X01ne.001|GB#X01NE-001|GB#X01NE.0A1|GB#X01NE. 01|GB#X01NE.+01|GB#X01NE.00:|"
                     "GB#X01NE.0/1|GB#X0 NE.001|GB7X01NE.001"},
    {"DSID", "EDTN", "|0|00|0000|00001|10000|12345|-1|+1| 1|1 |1A|A|1.0|0x1|1:|/1"},
    {"DSID", "UPDN", "|1000|0000|00001|-1|+1| 1|1 |A|1.0|0 |/0|:"},
    {"DSID", "UPDN", "|0|00|000|1000|0001|-1|A| 1|/1|1:"},
    {"DSID", "UADT", "00000101|19000229|20230229|20231301|20230001|20230100|20230132|20230431|2023 101|2023010A|21000229|00000000|99999999|"
                     "20240230|19990631|20240931|20241131|01.02.24|2024013 |2024-1-1|        |20241232|/0240101|2024010:|20240:01"},
    {"DSID", "ISDT", "00000101|19000229|20230229|20231301|20230001|20230100|20230132|20230431|2023 101|2023010A|21000229|00000000|99999999|"
                     "20240230|19990631|20240931|20241131|01.02.24|2024013 |2024-1-1|        |18000229|25000229|0001 101|00020229"},
    {"DSID", "STED", "03.0|03,1| 3.1|3.10|03.2|13.1|0301|03.A"},
    {"DSID", "PRSP", "0|2|3|49|255"},
    {"DSID", "PSDN", " |1|None|A"},
    {"DSID", "PRED", "|2|2.|2.00|02.0|1.0|2.1|2,0| 2.0|2.0 |3.0"},
    {"DSID", "PROF", "0|2|3|255"},
    {"DSID", "PROF", "0|1|3|255"},
    {"DSSI", "DSTR", "0|1|3|4|5|255"},
    {"DSSI", "AALL", "2|3|48|128|255"},
    {"DSSI", "NALL", "2|3|49|129|255"},
    {"DSSI", "NOCR", "1|256|16777216|4294967295"},
    {"DSSI", "NOFA", "1|256|65536|16777216|4294967295"},
    {"DSPM", "RCNM", "0|10|19|21|100|255"},
    {"DSPM", "RCID", "0|4294967295"},
    {"DSPM", "HDAT", "0|1|3|50|255"},
    {"DSPM", "DUNI", "0|2|3|4|49|255"},
    {"DSPM", "HUNI", "0|2|3|49|255"},
    {"DSPM", "PUNI", "0|2|3|49|255"},
    {"DSPM", "COUN", "0|2|3|49|255"},
    {"DSPM", "COMF", "0|10000001|100000000|2147483648|4294967295"},
    {"DSPM", "SOMF", "0|1|9|11|100|266|65546|167772160|4294967295"},
    {"VRID", "RCNM", "0|10|20|100|109|111|119|121|129|131|140|255"},
    {"VRID", "RCID", "0|4294967295"},
    {"VRID", "RVER", "0"},
    {"VRID", "RUIN", "0|2|3|4|255"},
    {"VRID", "RUIN", "0|4|5|128|255"},
    {"FRID", "RCNM", "0|10|20|99|101|110|120|130|255"},
    {"FRID", "RCID", "0|4294967295"},
    {"FRID", "PRIM", "0|4|5|127|128|254"},
    {"FRID", "OBJL", "0|402|403|499|500|512|656|32768|65535"},
    {"FRID", "RVER", "0"},
    {"FRID", "RUIN", "0|2|3|4|255"},
    {"FRID", "RUIN", "0|4|5|128|255"},
    {"FFPT", "RIND", "0|1|4|5|50|255"},
};

/* One of the values between the bars, into `value`. */
static void choose_value(const char *values, struct random *random, char value[32])
{
    uint32_t count = 1;
    for (const char *at = values; *at != '\0'; at++)
        count += *at == '|';
    uint32_t skipped = random_below(random, count);
    const char *from = values;
    for (; skipped > 0; skipped--)
        from = strchr(from, '|') + 1;
    size_t length = strcspn(from, "|");
    memcpy(value, from, length);
    value[length] = '\0';
}

static void put_use(char *value, uint8_t use)
{
    for (; *value != '\0'; value++) {
        if (*value == '#')
            *value = (char)('0' + use);
        if (*value == '%')
            *value = (char)('0' + use % 6 + 1);
    }
}

static unsigned width_of(const char *tag, const char *label)
{
    const struct tag_row *row = row_of_tag(tag);
    size_t i = 0;
    while (strcmp(row->subfield[i].label, label) != 0)
        i++;
    return format_width(row->subfield[i].format);
}

static bool is_number(const char *tag, const char *label)
{
    const struct tag_row *row = row_of_tag(tag);
    size_t i = 0;
    while (strcmp(row->subfield[i].label, label) != 0)
        i++;
    return row->subfield[i].format[0] == 'b';
}

static size_t any_entry(const struct chart_field *field, struct random *random)
{
    return random_below(random, (uint32_t)count_entries(field));
}

static bool break_value(struct chart *chart, size_t way, struct random *random, struct fault *fault)
{
    const struct bad *bad = &bads[way];
    char value[32];
    size_t record, at;
    if (!pick_field(chart, bad->tag, random, &record, &at))
        return false;
    struct chart_field *field = &chart->list.record[record].field[at];
    struct place place = subfield_place(field, any_entry(field, random), bad->label);
    choose_value(bad->values, random, value);
    if (is_number(bad->tag, bad->label)) {
        set_number(field->content.bytes + place.start, width_of(bad->tag, bad->label), strtoull(value, NULL, 10));
    } else {
        put_use(value, chart->list.record[1].field[1].content.bytes[6]);
        replace_bytes(&field->content, place, value, strlen(value));
    }
    return wrong_value(fault, record, at, place.start);
}

/* ---- rules that join two subfields */

/* DSNM says another number than UPDN, both being fine by themselves. */
static bool break_update_number(struct chart *chart, size_t way, struct random *random, struct fault *fault)
{
    struct chart_field *field = &chart->list.record[1].field[1];
    struct place name = subfield_place(field, 0, "DSNM"), number = subfield_place(field, 0, "UPDN");
    (void)way;
    unsigned long said = strtoul((const char *)field->content.bytes + number.start, NULL, 10);
    unsigned long other = random_one_in(random, 2) ? said % 999 + 1 : random_between(random, 0, 999);
    if (other == said)
        return false;
    put_digits(field->content.bytes + name.start + 9, 3, other);
    return wrong_value(fault, 1, 1, number.start);
}

/* They agree, but an update has none of that number. */
static bool break_update_zero(struct chart *chart, size_t way, struct random *random, struct fault *fault)
{
    static const char *const zeros[] = {"0", "00", "000"};
    struct chart_field *field = &chart->list.record[1].field[1];
    struct place name = subfield_place(field, 0, "DSNM"), number = subfield_place(field, 0, "UPDN");
    const char *zero = zeros[random_below(random, 3)];
    (void)way;
    put_digits(field->content.bytes + name.start + 9, 3, 0);
    replace_bytes(&field->content, number, zero, strlen(zero));
    return wrong_value(fault, 1, 1, number.start);
}

/* ---- bytes that no text may have */

static const char *const texts[][2] = {{"DSID", "COMT"}, {"DSPM", "COMT"}, {"ATTV", "ATVL"}, {"ATTF", "ATVL"},
                                       {"NATF", "ATVL"}, {"FFPT", "COMT"}, {"DSID", "UADT"}};

static bool is_high_allowed(const struct chart *chart, const char *tag)
{
    const uint8_t *structure = chart->list.record[1].field[2].content.bytes;
    return (strcmp(tag, "ATTF") == 0 && structure[1] == 1) || (strcmp(tag, "NATF") == 0 && structure[2] == 1);
}

/* The bytes next to those allowed come up most. */
static uint8_t forbidden_byte(bool high_allowed, struct random *random)
{
    static const uint8_t always[] = {0, 1, 9, 10, 0x19, 0x1B, 0x1E, 0x7F, 0x80, 0x9F, 0x81, 0x1D};
    static const uint8_t low_only[] = {0xA0, 0xA1, 0xFF, 0xC4, 0xE9, 0xBF};
    if (!high_allowed && random_one_in(random, 2))
        return low_only[random_below(random, sizeof low_only)];
    return always[random_below(random, sizeof always)];
}

static bool break_text_byte(struct chart *chart, size_t way, struct random *random, struct fault *fault)
{
    const char *tag = texts[way][0], *label = texts[way][1];
    size_t record, at;
    if (!pick_field(chart, tag, random, &record, &at))
        return false;
    struct chart_field *field = &chart->list.record[record].field[at];
    struct place place = subfield_place(field, any_entry(field, random), label);
    uint8_t byte = forbidden_byte(is_high_allowed(chart, tag), random);
    bool fixed = width_of(tag, label) > 0;
    /* in a cell 7F is as bad alone as with others; in an update it may stand alone, so that then there must be more */
    if (chart->update && byte == REMOVED && place.length <= 1 && strcmp(label, "ATVL") == 0)
        return false;
    size_t in_text = random_below(random, (uint32_t)place.length + !fixed);
    if (fixed)
        field->content.bytes[place.start + in_text] = random_one_in(random, 6) ? UNIT_END : byte;
    else if (place.length > 0 && in_text < place.length && random_one_in(random, 2))
        field->content.bytes[place.start + in_text] = byte;
    else
        *buffer_open(&field->content, place.start + in_text, 1) = byte;
    return wrong_value(fault, record, at, place.start);
}

/* 7F alone where it may not be: in a cell's attributes, or in a comment. In an update's attributes it may not have company. */
static bool break_removed(struct chart *chart, size_t way, struct random *random, struct fault *fault)
{
    static const uint8_t alone[] = {REMOVED}, more[][2] = {{REMOVED, REMOVED}, {REMOVED, ' '}, {'A', REMOVED}, {REMOVED, 'z'}};
    static const unsigned attributes[] = {2, 3, 4}, comments[] = {0, 5, 1};
    const char *const *chosen = texts[(way == 0 ? comments : attributes)[random_below(random, 3)]];
    size_t record, at;
    if (!pick_field(chart, chosen[0], random, &record, &at))
        return false;
    struct chart_field *field = &chart->list.record[record].field[at];
    struct place place = subfield_place(field, any_entry(field, random), chosen[1]);
    if (way == 2)
        replace_bytes(&field->content, place, more[random_below(random, 4)], 2);
    else
        replace_bytes(&field->content, place, alone, 1);
    return wrong_value(fault, record, at, place.start);
}

/* ---- a label twice */

/* Appends an attribute to the record's last field of that tag, or as a field of its own after it. */
static void append_attribute(struct chart_record *record, size_t last, uint64_t label, bool apart, struct fault *fault, size_t index)
{
    struct chart_field *field = &record->field[last];
    if (apart) {
        char tag[4];
        memcpy(tag, field->tag, sizeof tag);
        field = insert_field(record, ++last, NULL);
        memcpy(field->tag, tag, sizeof tag);
    }
    wrong_value(fault, index, last, field->content.length);
    put_number(&field->content, 2, label);
    put_text(&field->content, "1");
}

static bool break_label_twice(struct chart *chart, size_t way, struct random *random, struct fault *fault)
{
    static const char *const tags[] = {"ATTV", "ATTF", "NATF"};
    size_t record, at;
    if (!pick_field(chart, tags[way], random, &record, &at))
        return false;
    struct chart_record *fields = &chart->list.record[record];
    struct chart_field *field = &fields->field[at];
    struct place place = subfield_place(field, any_entry(field, random), "ATTL");
    uint64_t label = get_number(field->content.bytes + place.start, 2);
    size_t last = at;
    while (last + 1 < fields->count && has_tag(&fields->field[last + 1], tags[way]))
        last++;
    append_attribute(fields, last, label, random_one_in(random, 2), fault, record);
    return true;
}

#define VALUE(name, way, scope) {"value: " name, break_value, way, scope}

static const struct chart_rule rules[] = {
    VALUE("DSID RCNM", 0, IN_BOTH), VALUE("DSID RCID", 1, IN_BOTH), VALUE("EXPP", 2, IN_CELL), VALUE("EXPP in an update", 3, IN_UPDATE),
    VALUE("INTU", 4, IN_BOTH), VALUE("DSNM", 5, IN_CELL), VALUE("DSNM in an update", 6, IN_UPDATE), VALUE("EDTN", 7, IN_BOTH),
    VALUE("UPDN", 8, IN_CELL), VALUE("UPDN in an update", 9, IN_UPDATE), VALUE("UADT", 10, IN_CELL), VALUE("ISDT", 11, IN_BOTH),
    VALUE("STED", 12, IN_BOTH), VALUE("PRSP", 13, IN_BOTH), VALUE("PSDN", 14, IN_BOTH), VALUE("PRED", 15, IN_BOTH),
    VALUE("PROF", 16, IN_CELL), VALUE("PROF in an update", 17, IN_UPDATE), VALUE("DSTR", 18, IN_BOTH), VALUE("AALL", 19, IN_BOTH),
    VALUE("NALL", 20, IN_BOTH), VALUE("NOCR", 21, IN_CELL), VALUE("NOFA", 22, IN_CELL), VALUE("DSPM RCNM", 23, IN_CELL),
    VALUE("DSPM RCID", 24, IN_CELL), VALUE("HDAT", 25, IN_CELL), VALUE("DUNI", 26, IN_CELL), VALUE("HUNI", 27, IN_CELL),
    VALUE("PUNI", 28, IN_CELL), VALUE("COUN", 29, IN_CELL), VALUE("COMF", 30, IN_CELL), VALUE("SOMF", 31, IN_CELL),
    VALUE("VRID RCNM", 32, IN_BOTH), VALUE("VRID RCID", 33, IN_BOTH), VALUE("VRID RVER", 34, IN_BOTH), VALUE("VRID RUIN", 35, IN_CELL),
    VALUE("VRID RUIN in an update", 36, IN_UPDATE), VALUE("FRID RCNM", 37, IN_BOTH), VALUE("FRID RCID", 38, IN_BOTH),
    VALUE("PRIM", 39, IN_BOTH), VALUE("OBJL", 40, IN_BOTH), VALUE("FRID RVER", 41, IN_BOTH), VALUE("FRID RUIN", 42, IN_CELL),
    VALUE("FRID RUIN in an update", 43, IN_UPDATE), VALUE("RIND", 44, IN_BOTH),
    {"value: DSNM and UPDN disagree", break_update_number, 0, IN_UPDATE},
    {"value: a byte in DSID's COMT", break_text_byte, 0, IN_BOTH},
    {"value: a byte in DSPM's COMT", break_text_byte, 1, IN_CELL},
    {"value: a byte in ATTV", break_text_byte, 2, IN_BOTH},
    {"value: a byte in ATTF", break_text_byte, 3, IN_BOTH},
    {"value: a byte in NATF", break_text_byte, 4, IN_BOTH},
    {"value: a byte in FFPT's COMT", break_text_byte, 5, IN_BOTH},
    {"value: a byte in an update's UADT", break_text_byte, 6, IN_UPDATE},
    {"value: UPDN 0 and DSNM .000 in an update", break_update_zero, 0, IN_UPDATE},
    {"value: 7F in a comment", break_removed, 0, IN_BOTH},
    {"value: 7F in a cell's attributes", break_removed, 1, IN_CELL},
    {"value: 7F with others in attributes", break_removed, 2, IN_BOTH},
    {"value: ATTL twice in ATTV", break_label_twice, 0, IN_BOTH},
    {"value: ATTL twice in ATTF", break_label_twice, 1, IN_BOTH},
    {"value: ATTL twice in NATF", break_label_twice, 2, IN_BOTH},
};

const struct rule_set value_faults = {rules, sizeof rules / sizeof rules[0]};
