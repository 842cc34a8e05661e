/* "Held form" and Admit: the re-issue of a chart whose topology is good. Its size is known before a byte of it is written: one walk over the records in held
   order adds up what they will have, a second one writes them. */
#include "reader_parts.h"

#include <string.h>

enum { FIRST_PLACE = 3, MOST_RECORDS = 65536, LONGEST_RECORD = 99999, LONGEST_HELD = 5242880 };

/* ---- writing bytes and numbers */

static uint8_t *put_bytes(uint8_t *to, const void *from, size_t count)
{
    memcpy(to, from, count);
    return to + count;
}

static uint8_t *put_number(uint8_t *to, unsigned width, uint32_t number)
{
    for (unsigned i = 0; i < width; i++)
        to[i] = (uint8_t)(number >> 8 * i);
    return to + width;
}

/* ---- DSID: EDTN and UPDN lose their leading zeros. An update's result has the update's UPDN and twice its ISDT; all else stays */

/* Where EDTN begins: behind 7 bytes of numbers, and DSNM's 12 and its 1F. UPDN follows it, then UADT and ISDT. */
enum { EDTN = 7 + 12 + 1, DATE = 8 };

/* The parts of DSID that are written one by one: texts with their 1F, and the two dates. */
struct identification {
    const uint8_t *edition, *number, *applied, *issued, *rest;
};

/* Of a text of digits. Its last one stays, whatever it is. */
static const uint8_t *behind_zeros(const uint8_t *text)
{
    while (text[0] == '0' && text[1] != UNIT_END)
        text++;
    return text;
}

static const uint8_t *text_after(const uint8_t *text)
{
    while (*text != UNIT_END)
        text++;
    return text + 1;
}

static struct identification parts_of(const uint8_t *dsid)
{
    const uint8_t *number = text_after(dsid + EDTN), *dates = text_after(number);
    return (struct identification){dsid + EDTN, number, dates, dates + DATE, dates + 2 * DATE};
}

static struct identification identification_of(const struct reading *chart, const uint8_t *dsid)
{
    struct identification parts = parts_of(dsid);
    if (chart->result != NULL) {
        struct identification update = parts_of(chart->result->identification);
        parts.number = update.number;
        parts.applied = parts.issued = update.issued;
    }
    parts.edition = behind_zeros(parts.edition);
    parts.number = behind_zeros(parts.number);
    return parts;
}

static size_t text_size(const uint8_t *text)
{
    return (size_t)(text_after(text) - text);
}

/* `length` is that of the field as the cell has it. */
static size_t identification_size(const struct reading *chart, const uint8_t *dsid, size_t length)
{
    struct identification parts = identification_of(chart, dsid);
    return EDTN + text_size(parts.edition) + text_size(parts.number) + 2 * DATE + (size_t)(dsid + length - parts.rest);
}

static uint8_t *put_identification(uint8_t *to, const struct reading *chart, const uint8_t *dsid, size_t length)
{
    struct identification parts = identification_of(chart, dsid);
    to = put_bytes(to, dsid, EDTN);
    to = put_bytes(to, parts.edition, text_size(parts.edition));
    to = put_bytes(to, parts.number, text_size(parts.number));
    to = put_bytes(to, parts.applied, DATE);
    to = put_bytes(to, parts.issued, DATE);
    return put_bytes(to, parts.rest, (size_t)(dsid + length - parts.rest));
}

/* DSTR, AALL, NALL, and the counts of the records met. */
static uint8_t *put_structure(uint8_t *to, const struct reading *chart, const uint8_t *dssi)
{
    to = put_bytes(to, dssi, 3);
    for (size_t i = 0; i < HEADS; i++)
        to = put_number(to, 4, chart->counted[i]);
    *to++ = FIELD_END;
    return to;
}

/* ---- a record */

/* Makes the record of this place the one at hand. Records 1 and 2 are the cell's, also in a result. */
static void load_place(struct reading *chart, size_t place)
{
    if (place >= FIRST_PLACE) {
        load_item(chart, place - FIRST_PLACE);
        return;
    }
    size_t start = 0;
    for (; place > 0; place--)
        start = reader_record(chart->bytes, start).end;
    load_record(chart, chart->bytes, start);
}

/* Loads the record and outlines what it will be: fields of one tag, which stand side by side, are joined and keep one 1E. */
static void outline_record(struct reading *chart, size_t place, struct outline *outline)
{
    load_place(chart, place);
    outline->fields = 0;
    for (size_t i = 0; i < chart->field_count; i++) {
        const struct field *field = &chart->fields[i];
        if (i > 0 && field->tag == field[-1].tag)
            outline->length[outline->fields - 1] += field->length - 1;
        else
            outline_add(outline, field->tag, field->length);
    }
    if (place == 1)
        outline->length[1] = identification_size(chart, chart->from + chart->fields[1].start, chart->fields[1].length);
    outline_close(outline);
}

/* A field as it stood, without its 1E where the next one goes on with its list. RUIN is 1 already: in every readable cell, in an insert, and in what
   was changed. */
static uint8_t *put_field(uint8_t *to, const struct reading *chart, size_t index)
{
    const struct field *field = &chart->fields[index];
    bool goes_on = index + 1 < chart->field_count && field[1].tag == field->tag;
    return put_bytes(to, chart->from + field->start, field->length - goes_on);
}

/* The record at hand. Its first field is 0001: the place, and 1E. */
static uint8_t *put_record(uint8_t *to, const struct reading *chart, size_t place, const struct outline *outline)
{
    const struct field *field = chart->fields;
    to = outline_put(outline, " D     ", "   ", to);
    to = put_number(to, 2, (uint32_t)place);
    *to++ = FIELD_END;
    if (place == 1) {
        to = put_identification(to, chart, chart->from + field[1].start, field[1].length);
        return put_structure(to, chart, chart->from + field[2].start);
    }
    for (size_t i = 1; i < chart->field_count; i++)
        to = put_field(to, chart, i);
    return to;
}

/* ---- the whole */

struct sizes {
    size_t longest, total;
};

/* Of all records. In Apply a record can grow past its limit. In Admit none can: record 0 is short, and no other record grows. Its contents lose zeros and 1Es
   at most, so its last position stays or falls, and the digits of positions with it. Digits of lengths can grow, by d say, where a list is joined: but then
   it was over 10^(d - 1) fields, so at least 10^(d - 1) entries go, each of 7 bytes or more and with a 1E, and the 7 entries that stay, or fewer, grow
   by d bytes each; and 8 * 10^(d - 1) is over 7 * d. (An entry has 7: its tag, a digit, and two since no list begins before position 12.) */
static struct sizes sizes_of(struct reading *chart, size_t first)
{
    struct sizes sizes = {first, first};
    struct outline outline;
    for (size_t place = 1; place < chart->records; place++) {
        outline_record(chart, place, &outline);
        sizes.longest = outline.size > sizes.longest ? outline.size : sizes.longest;
        sizes.total += outline.size;
    }
    return sizes;
}

struct answer hold(struct reading *chart, uint8_t *out, size_t out_length)
{
    uint8_t first[FIRST_ROOM];
    size_t first_length = first_record(first);
    struct sizes sizes = sizes_of(chart, first_length);
    struct outline outline;
    if (sizes.longest > LONGEST_RECORD || chart->records > MOST_RECORDS || sizes.total > LONGEST_HELD)
        return (struct answer){.code = CODE_SIZE, .file = 3};
    if (out_length < sizes.total)
        return (struct answer){.code = CODE_ROOM, .number = (uint32_t)sizes.total};
    uint8_t *to = put_bytes(out, first, first_length);
    for (size_t place = 1; place < chart->records; place++) {
        outline_record(chart, place, &outline);
        to = put_record(to, chart, place, &outline);
    }
    return (struct answer){.number = (uint32_t)sizes.total};
}

struct answer reader_admit(const uint8_t *cell, size_t length, size_t work_length, uint8_t *out, size_t out_length)
{
    struct reading reading = {.bytes = cell, .length = length};
    struct answer answer = read_files(&reading, NULL, work_length);
    if (answer.code == CODE_DONE)
        answer = judge_topology(&reading);
    if (answer.code == CODE_DONE)
        answer = hold(&reading, out, out_length);
    reading_close(&reading);
    return answer;
}
