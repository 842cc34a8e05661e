/* Record 0 in its many legal ways. */
#include "generate_chart.h"

#include <stdio.h>
#include <stdlib.h>
#include <string.h>

enum { UNIT_END = 0x1F, CONTROLS = 9 };

/* ---- formats */

static void put_string(struct buffer *text, const char *string)
{
    buffer_put(text, string, strlen(string));
}

static void put_count(struct buffer *text, size_t count)
{
    char digits[24];
    snprintf(digits, sizeof digits, "%zu", count);
    put_string(text, digits);
}

static bool same_formats(const struct subfield *left, const struct subfield *right, size_t count)
{
    for (size_t i = 0; i < count; i++)
        if (strcmp(left[i].format, right[i].format) != 0)
            return false;
    return true;
}

/* How often the first `group` formats stand there one after another. */
static size_t times_repeated(const struct subfield *from, size_t count, size_t group)
{
    size_t times = 1;
    while ((times + 1) * group <= count && same_formats(from, from + times * group, group))
        times++;
    return times;
}

/* As document 01 writes it: neighbours that are alike under one count, no inner brackets. */
static void put_plain_items(struct buffer *text, const struct subfield *from, size_t count)
{
    while (count > 0) {
        size_t times = times_repeated(from, count, 1);
        if (times > 1)
            put_count(text, times);
        put_string(text, from->format);
        from += times;
        count -= times;
        if (count > 0)
            put_string(text, ",");
    }
}

/* Any list that is written out to these formats. */
static void put_items(struct buffer *text, const struct subfield *from, size_t count, unsigned level, struct random *random)
{
    while (count > 0) {
        bool bracket = level < MOST_LEVELS && random_one_in(random, 3);
        size_t group = bracket ? random_between(random, 1, (uint32_t)count) : 1;
        size_t times = random_between(random, 1, (uint32_t)times_repeated(from, count, group));
        if (times > 1 || random_one_in(random, 6))
            put_count(text, times);
        if (bracket) {
            put_string(text, "(");
            put_items(text, from, group, level + 1, random);
            put_string(text, ")");
        } else {
            put_string(text, from->format);
        }
        from += group * times;
        count -= group * times;
        if (count > 0)
            put_string(text, ",");
    }
}

void put_formats_text(struct buffer *text, const struct tag_row *row, bool plain, struct random *random)
{
    put_string(text, "(");
    if (plain)
        put_plain_items(text, row->subfield, row->count);
    else
        put_items(text, row->subfield, row->count, 1, random);
    put_string(text, ")");
}

/* ---- descriptive fields */

/* The name may be any bytes but 1F, also none. */
static void put_any_name(struct buffer *content, struct random *random)
{
    for (uint32_t count = random_below(random, 30); count > 0; count--) {
        uint8_t byte = random_byte(random);
        *buffer_more(content, 1) = byte == UNIT_END ? ' ' : byte;
    }
}

static void put_labels(struct buffer *content, const struct tag_row *row)
{
    for (size_t i = 0; i < row->count; i++) {
        put_string(content, i > 0 ? "!" : row->repeats ? "*" : "");
        put_string(content, row->subfield[i].label);
    }
}

static void put_description(struct chart_record *record, const struct tag_row *row, bool plain, struct random *random)
{
    struct buffer *content = &add_field(record, row->tag)->content;
    for (size_t i = 0; i < CONTROLS; i++)
        *buffer_more(content, 1) = plain ? (uint8_t)row->controls[i] : random_byte(random);
    if (plain || random_one_in(random, 2))
        put_string(content, row->name);
    else
        put_any_name(content, random);
    *buffer_more(content, 1) = UNIT_END;
    put_labels(content, row);
    *buffer_more(content, 1) = UNIT_END;
    put_formats_text(content, row, plain || random_one_in(random, 4), random);
}

/* The pairs of tags that document 000 puts here; no reader may look at them. */
static void put_tag_tree(struct chart_record *record, bool plain, struct random *random)
{
    struct buffer *content = &add_field(record, "0000")->content;
    if (!plain) {
        put_any_name(content, random);
        return;
    }
    put_string(content, "0000;&   ");
    put_text(content, "");
    put_string(content, "0001DSIDDSIDDSSI0001DSPM0001VRIDVRIDATTVVRIDVRPTVRIDSG2DVRIDSG3D0001FRIDFRIDFOIDFRIDATTFFRIDNATFFRIDFFPTFRIDFSPT");
}

bool chart_uses(const struct chart *chart, const char *tag)
{
    for (size_t i = 1; i < chart->list.count; i++)
        if (find_field(&chart->list.record[i], tag) < chart->list.record[i].count)
            return true;
    return false;
}

static bool is_control(const struct tag_row *row)
{
    return row >= tag_rows + TAGS - 4;
}

void describe_chart(struct chart *chart, bool plain, struct random *random)
{
    const struct tag_row *chosen[TAGS];
    size_t count = 0;
    for (size_t i = 1; i < TAGS; i++)
        if (chart_uses(chart, tag_rows[i].tag) || (plain ? chart->update || !is_control(&tag_rows[i]) : random_one_in(random, 2)))
            chosen[count++] = &tag_rows[i];
    for (size_t left = count; !plain && left > 1; left--) {
        size_t at = random_below(random, (uint32_t)left);
        const struct tag_row *last = chosen[left - 1];
        chosen[left - 1] = chosen[at];
        chosen[at] = last;
    }
    struct chart_record *record = &chart->list.record[0];
    while (record->count > 0)
        remove_field(record, record->count - 1);
    put_tag_tree(record, plain, random);
    put_description(record, &tag_rows[0], plain, random);
    for (size_t i = 0; i < count; i++)
        put_description(record, chosen[i], plain, random);
}
