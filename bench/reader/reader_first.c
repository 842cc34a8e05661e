/* Record 0 of the held form: "one fixed string", which declares 0000, 0001 and the fourteen tags of a cell. Leader, control bytes and names are those of
   document 000, annex A; labels and formats are those of document 01's table, which describe() asks of any record 0. */
#include "reader_parts.h"

#include <string.h>

/* The pairs say which field stands below which; they and the fields come in the order in which the tree is walked: a field, then what is below it. */
static const char tree[] = "0000;&   \037"
                           "0001DSIDDSIDDSSI0001DSPM"
                           "0001FRIDFRIDFOIDFRIDATTFFRIDNATFFRIDFFPTFRIDFSPT"
                           "0001VRIDVRIDATTVVRIDVRPTVRIDSG2DVRIDSG3D";

/* "-A " says that level 1 may stand in the field. A cell of level 0 keeps to it too, so one string serves all. */
static const struct {
    enum kind kind;
    const char *controls, *name, *formats;
} declared[] = {
    {KIND_0001, "0500;&   ", "ISO 8211 Record Identifier", "(b12)"},
    {KIND_DSID, "1600;&   ", "Data set identification field", "(b11,b14,2b11,3A,2A(8),R(4),b11,2A,b11,b12,A)"},
    {KIND_DSSI, "1600;&   ", "Data set structure information field", "(3b11,8b14)"},
    {KIND_DSPM, "1600;&   ", "Data set parameter field", "(b11,b14,3b11,b14,4b11,2b14,A)"},
    {KIND_FRID, "1600;&   ", "Feature record identifier field", "(b11,b14,2b11,2b12,b11)"},
    {KIND_FOID, "1600;&   ", "Feature object identifier field", "(b12,b14,b12)"},
    {KIND_ATTF, "2600;&-A ", "Feature record attribute field", "(b12,A)"},
    {KIND_NATF, "2600;&-A ", "Feature record national attribute field", "(b12,A)"},
    {KIND_FFPT, "2000;&   ", "Feature record to feature object pointer field", "(B(64),b11,A)"},
    {KIND_FSPT, "2000;&   ", "Feature record to spatial record pointer field", "(B(40),3b11)"},
    {KIND_VRID, "1600;&   ", "Vector record identifier field", "(b11,b14,b12,b11)"},
    {KIND_ATTV, "2600;&   ", "Vector record attribute field", "(b12,A)"},
    {KIND_VRPT, "2000;&   ", "Vector record pointer field", "(B(40),4b11)"},
    {KIND_SG2D, "2200;&   ", "2-D Coordinate field", "(2b24)"},
    {KIND_SG3D, "2200;&   ", "3-D Coordinate field", "(3b24)"},
};

enum { DECLARED = sizeof declared / sizeof declared[0] };

/* Appends a text and what closes it; returns where the next one goes. */
static uint8_t *put_closed(uint8_t *to, const char *text, uint8_t closing)
{
    size_t length = strlen(text);
    memcpy(to, text, length);
    to[length] = closing;
    return to + length + 1;
}

static uint8_t *put_declared(uint8_t *to, size_t index)
{
    size_t controls = strlen(declared[index].controls);
    memcpy(to, declared[index].controls, controls);
    to = put_closed(to + controls, declared[index].name, UNIT_END);
    to = put_closed(to, table[declared[index].kind].labels, UNIT_END);
    return put_closed(to, declared[index].formats, FIELD_END);
}

size_t first_record(uint8_t *to)
{
    uint8_t area[FIRST_ROOM], *end = put_closed(area, tree, FIELD_END);
    struct outline outline = {0};
    outline_add(&outline, TAG_0000, (size_t)(end - area));
    for (size_t i = 0; i < DECLARED; i++) {
        uint8_t *start = end;
        end = put_declared(end, i);
        outline_add(&outline, table[declared[i].kind].tag, (size_t)(end - start));
    }
    outline_close(&outline);
    memcpy(outline_put(&outline, "3LE1 09", " ! ", to), area, (size_t)(end - area));
    return outline.size;
}
