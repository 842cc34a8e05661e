/* "Held form": its length is known when the records have been read; then each is copied at once, or put together anew. */
#include "tuned_parts.h"

enum { MOST_HELD = 65536, LONGEST_RECORD = 99999, LONGEST_HELD = 5242880, FIRST_PLACE = 3, FIRST_ROOM = 2048 };

/* ---- record 0: made once */

static uint8_t first[FIRST_ROOM];
static size_t first_length;

static uint8_t *put_text(uint8_t *to, const char *text)
{
    size_t length = strlen(text);
    memcpy(to, text, length);
    return to + length;
}

static uint8_t *put_description(uint8_t *to, const struct description *row)
{
    to = put_text(put_text(to, row->controls), row->name);
    *to++ = UNIT_END;
    to = put_text(to, row->labels);
    *to++ = UNIT_END;
    to = put_text(to, row->formats);
    *to++ = FIELD_END;
    return to;
}

/* Which field stands below which, walked from the top; the fields come in the same order. */
static const char tree[] = "0000;&   \0370001DSIDDSIDDSSI0001DSPM0001FRIDFRIDFOIDFRIDATTFFRIDNATFFRIDFFPTFRIDFSPT0001VRIDVRIDATTVVRIDVRPTVRIDSG2DVRIDSG3D\036";

static void make_first(void)
{
    static const enum kind order[] = {KIND_0001, KIND_DSID, KIND_DSSI, KIND_DSPM, KIND_FRID, KIND_FOID, KIND_ATTF, KIND_NATF,
                                      KIND_FFPT, KIND_FSPT, KIND_VRID, KIND_ATTV, KIND_VRPT, KIND_SG2D, KIND_SG3D};
    uint8_t fields[FIRST_ROOM], *end = put_text(fields, tree);
    struct outline outline = {0};
    if (first_length > 0)
        return;
    outline_add(&outline, TAG_0000, (uint32_t)(end - fields));
    for (size_t i = 0; i < sizeof order / sizeof order[0]; i++) {
        uint8_t *start = end;
        end = put_description(end, &descriptions[order[i]]);
        outline_add(&outline, descriptions[order[i]].tag, (uint32_t)(end - start));
    }
    memcpy(put_outline(&outline, first), fields, outline.area);
    memcpy(first + 5, "3LE1 09", 7);
    memcpy(first + 17, " ! ", 3);
    first_length = outline_length(&outline);
}

/* ---- records 1 and 2 */

/* The parts of DSID that can differ: EDTN and UPDN without leading zeros, the dates, the rest. */
struct identification {
    const uint8_t *edition, *number, *applied, *issued, *rest;
    uint32_t edition_length, number_length, rest_length; /* a text's 1F and the field's 1E counted */
};

enum { EDTN = 7 + 12 + 1, DATE = 8 };

static const uint8_t *behind(const uint8_t *text)
{
    while (*text++ != UNIT_END)
        continue;
    return text;
}

static const uint8_t *significant(const uint8_t *text)
{
    while (text[0] == '0' && text[1] != UNIT_END)
        text++;
    return text;
}

static struct identification identification_of(const struct file *cell, const struct file *update)
{
    struct identification parts = {.edition = significant(cell->dsid + EDTN)};
    const uint8_t *number = behind(parts.edition), *dates = behind(number);
    parts.edition_length = (uint32_t)(number - parts.edition);
    parts.applied = dates;
    parts.issued = dates + DATE;
    parts.rest = dates + 2 * DATE;
    parts.rest_length = (uint32_t)(cell->dsid + cell->dsid_length - parts.rest);
    if (update != NULL) {
        number = behind(update->dsid + EDTN);
        parts.applied = parts.issued = behind(number) + DATE;
    }
    parts.number = significant(number);
    parts.number_length = (uint32_t)(behind(parts.number) - parts.number);
    return parts;
}

static uint32_t identification_length(const struct identification *parts)
{
    return EDTN + parts->edition_length + parts->number_length + 2 * DATE + parts->rest_length;
}

static uint8_t *put_bytes(uint8_t *to, const void *from, size_t count)
{
    memcpy(to, from, count);
    return to + count;
}

struct heads {
    struct identification parts;
    struct outline one, two;
    struct framed parameters;
};

static void heads_open(struct heads *heads, const struct file *cell, const struct file *update)
{
    const struct place *place = &places[cell->first + 2];
    *heads = (struct heads){.parts = identification_of(cell, update)};
    frame_record(place->start, place->start + place->length, false, &heads->parameters);
    outline_add(&heads->one, TAG_0001, 3);
    outline_add(&heads->one, TAG_DSID, identification_length(&heads->parts));
    outline_add(&heads->one, TAG_DSSI, 36);
    outline_add(&heads->two, TAG_0001, 3);
    outline_add(&heads->two, TAG_DSPM, framed_field(&heads->parameters, 1).length);
}

static uint8_t *put_heads(uint8_t *to, const struct heads *heads, const struct file *cell, const struct chart *chart)
{
    const struct identification *parts = &heads->parts;
    to = put_bytes(to, first, first_length);
    to = put_bytes(put_outline(&heads->one, to), "\1\0\036", 3);
    to = put_bytes(to, cell->dsid, EDTN);
    to = put_bytes(to, parts->edition, parts->edition_length);
    to = put_bytes(to, parts->number, parts->number_length);
    to = put_bytes(to, parts->applied, DATE);
    to = put_bytes(to, parts->issued, DATE);
    to = put_bytes(to, parts->rest, parts->rest_length);
    to = put_bytes(to, cell->dssi, 3);
    to = put_bytes(to, chart->counted, sizeof chart->counted);
    *to++ = FIELD_END;
    to = put_bytes(put_outline(&heads->two, to), "\2\0\036", 3);
    struct field field = framed_field(&heads->parameters, 1);
    return put_bytes(to, field.start, field.length);
}

/* ---- vectors and features */

/* As it stands, but for the leader's spaces and the number. */
ALWAYS void copy_record(uint8_t *to, const struct place *place, uint32_t number)
{
    memcpy(to, place->start, place->length);
    memcpy(to + 5, " D     ", 7);
    memcpy(to + 17, "   ", 3);
    to[place->body] = (uint8_t)number;
    to[place->body + 1] = (uint8_t)(number >> 8);
}

/* With other digits, and each list in one field. The fields stand side by side: all that isn't cut apart is copied at once. */
static void rewrite_record(uint8_t *to, const struct place *place, uint32_t number)
{
    struct outline outline = {0};
    struct framed framed;
    uint32_t before = 0;
    frame_record(place->start, place->start + place->length, false, &framed);
    for (size_t i = 0; i < framed.count; i++) {
        struct field field = framed_field(&framed, i);
        if (field.tag != before)
            outline_add(&outline, field.tag, field.length);
        else
            outline.length[outline.fields - 1] += field.length - 1;
        before = field.tag;
    }
    outline.longest = outline.area = 0;
    for (uint32_t i = 0; i < outline.fields; i++) {
        outline.longest = outline.length[i] > outline.longest ? outline.length[i] : outline.longest;
        outline.area += outline.length[i];
    }
    to = put_outline(&outline, to);
    uint8_t *body = to;
    const uint8_t *from = framed.body;
    for (size_t i = 1; i < framed.count; i++) {
        struct field field = framed_field(&framed, i);
        if (field.tag != framed_field(&framed, i - 1).tag)
            continue;
        /* up to the 1E before this field */
        to = put_bytes(to, from, (size_t)(field.start - 1 - from));
        from = field.start;
    }
    put_bytes(to, from, (size_t)(framed.end - from));
    body[0] = (uint8_t)number;
    body[1] = (uint8_t)(number >> 8);
}

static uint8_t *put_items(uint8_t *to, const struct chart *chart)
{
    uint32_t number = FIRST_PLACE;
    for (unsigned class = 0; class < CLASSES; class++) {
        const struct names *names = &chart->names[class];
        for (size_t i = 0; i < names->count; i++, number++) {
            const struct place *place = &places[names->records[i]];
            if (place->held & DIRECT)
                copy_record(to, place, number);
            else
                rewrite_record(to, place, number);
            to += place->held & LENGTH_HELD;
        }
    }
    return to;
}

/* ---- the whole */

struct sizes {
    size_t records, longest, total;
};

static struct sizes sizes_of(const struct chart *chart, const struct heads *heads)
{
    uint32_t one = outline_length(&heads->one), two = outline_length(&heads->two);
    struct sizes sizes = {FIRST_PLACE, one > two ? one : two, first_length + one + two};
    for (unsigned class = 0; class < CLASSES; class++) {
        const struct names *names = &chart->names[class];
        sizes.records += names->count;
        for (size_t i = 0; i < names->count; i++) {
            uint32_t length = places[names->records[i]].held & LENGTH_HELD;
            sizes.longest = length > sizes.longest ? length : sizes.longest;
            sizes.total += length;
        }
    }
    return sizes;
}

struct answer write_held(const struct file *cell, const struct file *update, const struct chart *chart, uint8_t *out, size_t out_length)
{
    struct heads heads;
    make_first();
    heads_open(&heads, cell, update);
    struct sizes sizes = sizes_of(chart, &heads);
    if (sizes.longest > LONGEST_RECORD || sizes.records > MOST_HELD || sizes.total > LONGEST_HELD)
        return (struct answer){.code = CODE_SIZE, .file = 3};
    if (out_length < sizes.total)
        return (struct answer){.code = CODE_ROOM, .number = (uint32_t)sizes.total};
    put_items(put_heads(out, &heads, cell, chart), chart);
    return (struct answer){.number = (uint32_t)sizes.total};
}
