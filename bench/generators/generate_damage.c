/* Random damage that keeps the framing: records, fields and contents change, and the writer frames what is left. */
#include "generate_read.h"

#include <string.h>

static size_t any_record(const struct chart *chart, struct random *random)
{
    return random_below(random, (uint32_t)chart->list.count);
}

static void swap_records(struct chart *chart, size_t left, size_t right)
{
    struct chart_record kept = chart->list.record[left];
    chart->list.record[left] = chart->list.record[right];
    chart->list.record[right] = kept;
}

static void damage_records(struct chart *chart, struct random *random)
{
    size_t from = any_record(chart, random), to = any_record(chart, random);
    switch (random_below(random, 3)) {
    case 0:
        swap_records(chart, from, to);
        break;
    case 1:
        if (chart->list.count > 1)
            remove_record(&chart->list, from);
        break;
    default: {
        struct chart_record copy = copy_record(&chart->list.record[from]);
        *insert_record(&chart->list, to) = copy;
    }
    }
}

/* A field put elsewhere in its record, or in another one. */
static void move_field(struct chart_record *from, size_t at, struct chart_record *to, bool keep, struct random *random)
{
    struct chart_field *chosen = &from->field[at];
    struct buffer content = {0};
    char tag[4];
    memcpy(tag, chosen->tag, sizeof tag);
    buffer_put(&content, chosen->content.bytes, chosen->content.length);
    if (!keep && from->count > 1)
        remove_field(from, at);
    struct chart_field *field = insert_field(to, random_below(random, (uint32_t)to->count + 1), NULL);
    memcpy(field->tag, tag, sizeof tag);
    field->content = content;
}

void damage_fields(struct chart *chart, struct random *random)
{
    if (random_one_in(random, 4)) {
        damage_records(chart, random);
        return;
    }
    struct chart_record *record = &chart->list.record[any_record(chart, random)], *other = &chart->list.record[any_record(chart, random)];
    size_t at = random_below(random, (uint32_t)record->count);
    switch (random_below(random, 4)) {
    case 0:
        if (record->count > 1)
            remove_field(record, at);
        break;
    case 1:
        memcpy(record->field[at].tag, tag_rows[random_below(random, TAGS)].tag, 4);
        break;
    case 2:
        move_field(record, at, record, random_one_in(random, 2), random);
        break;
    default:
        move_field(record, at, other, random_one_in(random, 2), random);
    }
}

/* Numbers and bytes that mean something somewhere. */
static uint8_t likely_byte(struct random *random)
{
    static const uint8_t likely[] = {0,    1,    2,   3,   4,   10,  20,  100, 110, 120, 130, 255, 0x1E,
                                     0x1F, 0x7F, ' ', '0', '9', 'A', '.', '(', ')', ',', '!', '*'};
    return random_one_in(random, 4) ? random_byte(random) : likely[random_below(random, sizeof likely)];
}

static void damage_run(struct buffer *content, size_t place, struct random *random)
{
    uint8_t run[16];
    size_t left = content->length - place, count = random_between(random, 1, left < sizeof run ? (uint32_t)left : sizeof run);
    memcpy(run, content->bytes + place, count);
    if (random_one_in(random, 2))
        buffer_remove(content, place, count);
    else
        memcpy(buffer_open(content, place, count), run, count);
}

void damage_contents(struct chart *chart, struct random *random)
{
    struct chart_record *record = &chart->list.record[any_record(chart, random)];
    struct buffer *content = &record->field[random_below(random, (uint32_t)record->count)].content;
    if (content->length == 0) {
        *buffer_more(content, 1) = likely_byte(random);
        return;
    }
    size_t place = random_below(random, (uint32_t)content->length);
    switch (random_below(random, 8)) {
    case 0:
        *buffer_open(content, place, 1) = likely_byte(random);
        break;
    case 1:
        buffer_remove(content, place, 1);
        break;
    case 2:
        damage_run(content, place, random);
        break;
    case 3:
    case 4:
        content->bytes[place] ^= (uint8_t)(1u << random_below(random, 8));
        break;
    default:
        content->bytes[place] = likely_byte(random);
    }
}
