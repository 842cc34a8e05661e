#include "follow.h"

#include "pieces.h"

#include <stdio.h>
#include <stdlib.h>
#include <string.h>

void put_counts(struct chart *chart)
{
    enum { STRUCTURE = 2, LENGTH = 35, FIRST_COUNTED = 3 };
    if (chart->list.count < FIRST_COUNTED || chart->list.record[1].count <= STRUCTURE ||
        chart->list.record[1].field[STRUCTURE].content.length < LENGTH)
        return;
    for (size_t i = chart->update ? FIRST_ITEM : FIRST_COUNTED; i < chart->list.count; i++)
        if (identifier_of(&chart->list.record[i]) == NULL)
            return;
    count_records(chart);
}

/* Where DSNM, EDTN and UPDN end in a DSID, each with its 1F. */
static bool find_texts(const struct chart *chart, size_t ends[3])
{
    enum { IDENTIFICATION = 1, DSNM = 7 };
    if (chart->list.count < 2 || chart->list.record[1].count <= 2 || !has_tag(&chart->list.record[1].field[IDENTIFICATION], "DSID"))
        return false;
    const struct buffer *content = &chart->list.record[1].field[IDENTIFICATION].content;
    size_t at = DSNM;
    for (unsigned text = 0; text < 3; text++) {
        while (at < content->length && content->bytes[at] != UNIT_END)
            at++;
        ends[text] = ++at;
    }
    return at <= content->length;
}

/* The update gets the cell's name, edition and levels, and the next number. */
static void follow_header(const struct chart *cell, struct chart *update)
{
    enum { INTU = 6, DSNM = 7, LEVELS = 1, STEM = 9, LONGEST = 10 };
    size_t held[3], said[3];
    char number[LONGEST + 1] = {0}, next[16];
    if (!find_texts(cell, held) || !find_texts(update, said) || held[0] < DSNM + STEM)
        return;
    struct buffer *dsid = &update->list.record[1].field[1].content, made = {0};
    const uint8_t *from = cell->list.record[1].field[1].content.bytes;
    size_t digits = held[2] - held[1] - 1;
    memcpy(number, from + held[1], digits < LONGEST ? digits : LONGEST);
    snprintf(next, sizeof next, "%03lu", strtoul(number, NULL, 10) % 999 + 1);
    buffer_put(&made, dsid->bytes, INTU);
    buffer_put(&made, from + INTU, 1 + STEM);
    buffer_put(&made, next, strlen(next));
    *buffer_more(&made, 1) = UNIT_END;
    buffer_put(&made, from + held[0], held[1] - held[0]);
    buffer_put(&made, next, strlen(next));
    *buffer_more(&made, 1) = UNIT_END;
    buffer_put(&made, dsid->bytes + said[2], dsid->length - said[2]);
    buffer_free(dsid);
    *dsid = made;
    struct buffer *levels = &update->list.record[1].field[2].content, *own = &cell->list.record[1].field[2].content;
    if (levels->length > LEVELS + 2 && own->length > LEVELS + 2)
        memcpy(levels->bytes + LEVELS, own->bytes + LEVELS, 2);
}

/* Record and version of a modify or delete are made to fit the item that it names, or any item. */
static void follow_item(struct chart *cell, struct chart_record *said, struct random *random)
{
    enum { FOID_FIELD = 2 };
    struct chart_field *identifier = identifier_of(said);
    if (identifier == NULL || identifier->content.bytes[identifier->content.length - 1] == INSERT)
        return;
    struct chart_record *held = item_named(cell, identifier->content.bytes);
    if (held == NULL)
        held = any_record(cell, random);
    const struct chart_field *own = held == NULL ? NULL : identifier_of(held);
    size_t length = identifier->content.length, version = length - 3;
    if (own == NULL || own->content.length != length || !has_tag(own, has_tag(identifier, "VRID") ? "VRID" : "FRID"))
        return;
    memcpy(identifier->content.bytes, own->content.bytes, length - 1);
    set_number(identifier->content.bytes + version, 2, get_number(own->content.bytes + version, 2) + 1);
    if (held->count > FOID_FIELD && said->count > FOID_FIELD && has_tag(&held->field[FOID_FIELD], "FOID") && has_tag(&said->field[FOID_FIELD], "FOID")) {
        said->field[FOID_FIELD].content.length = 0;
        buffer_put(&said->field[FOID_FIELD].content, held->field[FOID_FIELD].content.bytes, held->field[FOID_FIELD].content.length);
    }
}

/* The entries that the list behind a control has, in all its fields; of coordinates either kind. */
static size_t brought(const struct chart_record *said, size_t control)
{
    size_t count = 0;
    for (size_t at = control + 1; at < said->count && list_kind_of(&said->field[at]) != NULL; at++)
        count += entries_of(&said->field[at]);
    return count;
}

/* Controls that insert or modify get the number of entries that are brought. */
static void follow_controls(struct chart_record *said)
{
    enum { LENGTH = 5, COUNT = 3 };
    for (size_t at = 0; at < said->count; at++) {
        struct chart_field *control = &said->field[at];
        if (control->content.length == LENGTH && control->tag[3] == 'C' && control->content.bytes[0] != DELETE)
            set_number(control->content.bytes + COUNT, 2, brought(said, at));
    }
}

void follow_cell(struct chart *cell, struct chart *update, struct random *random)
{
    if (!random_one_in(random, 8))
        follow_header(cell, update);
    for (size_t i = FIRST_ITEM; i < update->list.count; i++) {
        if (!random_one_in(random, 8))
            follow_item(cell, &update->list.record[i], random);
        if (!random_one_in(random, 8))
            follow_controls(&update->list.record[i]);
    }
}
