/* The held form from the other side: made from a chart's structure instead of a file, with record 0 written down as it stands. */
#include "generate_admit.h"

#include <inttypes.h>
#include <stdio.h>
#include <stdlib.h>
#include <string.h>

enum { FIRST_ITEM = 3 };

/* ---- record 0: leader, directory and fields. \036 is 1E, \037 is 1F. */

const char first_of_held[] =
    "015613LE1 0900201 ! 3404"
    "00001230000" "00010430123" "DSID1650166" "DSSI1130331" "DSPM1300444" "FRID1000574" "FOID0700674" "ATTF0590744"
    "NATF0680803" "FFPT0860871" "FSPT0900957" "VRID0781047" "ATTV0581125" "VRPT0761183" "SG2D0481259" "SG3D0531307\036"
    "0000;&   \0370001DSIDDSIDDSSI0001DSPM0001FRIDFRIDFOIDFRIDATTFFRIDNATFFRIDFFPTFRIDFSPT0001VRIDVRIDATTVVRIDVRPTVRIDSG2DVRIDSG3D\036"
    "0500;&   ISO 8211 Record Identifier\037\037(b12)\036"
    "1600;&   Data set identification field\037"
    "RCNM!RCID!EXPP!INTU!DSNM!EDTN!UPDN!UADT!ISDT!STED!PRSP!PSDN!PRED!PROF!AGEN!COMT\037"
    "(b11,b14,2b11,3A,2A(8),R(4),b11,2A,b11,b12,A)\036"
    "1600;&   Data set structure information field\037DSTR!AALL!NALL!NOMR!NOCR!NOGR!NOLR!NOIN!NOCN!NOED!NOFA\037(3b11,8b14)\036"
    "1600;&   Data set parameter field\037RCNM!RCID!HDAT!VDAT!SDAT!CSCL!DUNI!HUNI!PUNI!COUN!COMF!SOMF!COMT\037"
    "(b11,b14,3b11,b14,4b11,2b14,A)\036"
    "1600;&   Feature record identifier field\037RCNM!RCID!PRIM!GRUP!OBJL!RVER!RUIN\037(b11,b14,2b11,2b12,b11)\036"
    "1600;&   Feature object identifier field\037AGEN!FIDN!FIDS\037(b12,b14,b12)\036"
    "2600;&-A Feature record attribute field\037*ATTL!ATVL\037(b12,A)\036"
    "2600;&-A Feature record national attribute field\037*ATTL!ATVL\037(b12,A)\036"
    "2000;&   Feature record to feature object pointer field\037*LNAM!RIND!COMT\037(B(64),b11,A)\036"
    "2000;&   Feature record to spatial record pointer field\037*NAME!ORNT!USAG!MASK\037(B(40),3b11)\036"
    "1600;&   Vector record identifier field\037RCNM!RCID!RVER!RUIN\037(b11,b14,b12,b11)\036"
    "2600;&   Vector record attribute field\037*ATTL!ATVL\037(b12,A)\036"
    "2000;&   Vector record pointer field\037*NAME!ORNT!USAG!TOPI!MASK\037(B(40),4b11)\036"
    "2200;&   2-D Coordinate field\037*YCOO!XCOO\037(2b24)\036"
    "2200;&   3-D Coordinate field\037*YCOO!XCOO!VE3D\037(3b24)\036";

const size_t first_of_held_length = sizeof first_of_held - 1;

_Static_assert(sizeof first_of_held - 1 == 1561, "the length in the leader");

/* ---- the other records */

static int in_held_order(const void *left, const void *right)
{
    static const uint8_t order[] = {110, 120, 130, 100};
    const uint8_t *one = ((const struct chart_record *)left)->field[1].content.bytes;
    const uint8_t *other = ((const struct chart_record *)right)->field[1].content.bytes;
    ptrdiff_t ranks = (const uint8_t *)memchr(order, one[0], sizeof order) - (const uint8_t *)memchr(order, other[0], sizeof order);
    uint64_t id = get_number(one + 1, 4), other_id = get_number(other + 1, 4);
    return ranks != 0 ? (int)ranks : (id > other_id) - (id < other_id);
}

/* A text of digits as the number that it is. */
static void spell_shortest(struct chart_field *field, const char *label)
{
    char text[24] = "";
    struct place place = subfield_place(field, 0, label);
    memcpy(text, field->content.bytes + place.start, place.length);
    int length = snprintf(text, sizeof text, "%lu", strtoul(text, NULL, 10));
    replace_bytes(&field->content, place, text, (size_t)length);
}

/* The chart as the held form has it, but for record 0, in whose place one stands that is cut off later. */
static struct chart held_chart(const struct chart *chart)
{
    struct chart held = {0};
    add_field(add_record(&held.list), "0000");
    for (size_t i = 1; i < chart->list.count; i++)
        *add_record(&held.list) = copy_record(&chart->list.record[i]);
    qsort(held.list.record + FIRST_ITEM, held.list.count - FIRST_ITEM, sizeof held.list.record[0], in_held_order);
    for (size_t i = 1; i < held.list.count; i++)
        set_number(held.list.record[i].field[0].content.bytes, 2, i);
    spell_shortest(&held.list.record[1].field[1], "EDTN");
    spell_shortest(&held.list.record[1].field[1], "UPDN");
    count_records(&held);
    return held;
}

/* A plain draft has blanks in the leaders and the fewest digits: that is the held form's way. */
static struct draft write_plain(const struct chart *chart)
{
    struct style plain = {.least_digits = 1, .plain = true};
    struct random unused = {1};
    struct draft draft = {0};
    write_chart(chart, &plain, &draft, &unused);
    return draft;
}

struct buffer held_of_chart(const struct chart *chart)
{
    struct chart held = held_chart(chart);
    struct draft draft = write_plain(&held);
    struct buffer file = {0};
    size_t cut = draft.records[1].start;
    buffer_put(&file, first_of_held, first_of_held_length);
    buffer_put(&file, draft.file.bytes + cut, draft.file.length - cut);
    draft_free(&draft);
    chart_free(&held);
    return file;
}

size_t held_record_length(const struct chart_record *record)
{
    struct chart_record copy = *record;
    struct chart alone = {.list = {.record = &copy, .count = 1}};
    struct draft draft = write_plain(&alone);
    size_t length = draft.file.length;
    draft_free(&draft);
    return length;
}

void lengthen_text(struct chart_field *field, size_t count)
{
    memset(buffer_open(&field->content, field->content.length - 1, count), 'x', count);
}
