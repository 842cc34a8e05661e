/* The table of tags: what record 0 must say of each, and what the held form's record 0 says besides. */
#include "tuned_parts.h"

enum { MOST_WRITTEN = 32, MOST_LEVELS = 4 };

#define ONCE "1600;&   "
#define ATTRIBUTE_LIST "*ATTL!ATVL", "(b12,A)", "2600;&"

const struct description descriptions[KINDS] = {
    [KIND_0001] = {TAG_0001, "", "(b12)", "0500;&   ", "ISO 8211 Record Identifier"},
    [KIND_DSID] = {TAG_DSID, "RCNM!RCID!EXPP!INTU!DSNM!EDTN!UPDN!UADT!ISDT!STED!PRSP!PSDN!PRED!PROF!AGEN!COMT",
                   "(b11,b14,2b11,3A,2A(8),R(4),b11,2A,b11,b12,A)", ONCE, "Data set identification field"},
    [KIND_DSSI] = {TAG_DSSI, "DSTR!AALL!NALL!NOMR!NOCR!NOGR!NOLR!NOIN!NOCN!NOED!NOFA", "(3b11,8b14)", ONCE, "Data set structure information field"},
    [KIND_DSPM] = {TAG_DSPM, "RCNM!RCID!HDAT!VDAT!SDAT!CSCL!DUNI!HUNI!PUNI!COUN!COMF!SOMF!COMT", "(b11,b14,3b11,b14,4b11,2b14,A)", ONCE,
                   "Data set parameter field"},
    [KIND_VRID] = {TAG_VRID, "RCNM!RCID!RVER!RUIN", "(b11,b14,b12,b11)", ONCE, "Vector record identifier field"},
    [KIND_ATTV] = {TAG_ATTV, ATTRIBUTE_LIST "   ", "Vector record attribute field"},
    [KIND_VRPC] = {TAG_VRPC, "VPUI!VPIX!NVPT", "(b11,2b12)", NULL, NULL},
    [KIND_VRPT] = {TAG_VRPT, "*NAME!ORNT!USAG!TOPI!MASK", "(B(40),4b11)", "2000;&   ", "Vector record pointer field"},
    [KIND_SGCC] = {TAG_SGCC, "CCUI!CCIX!CCNC", "(b11,2b12)", NULL, NULL},
    [KIND_SG2D] = {TAG_SG2D, "*YCOO!XCOO", "(2b24)", "2200;&   ", "2-D Coordinate field"},
    [KIND_SG3D] = {TAG_SG3D, "*YCOO!XCOO!VE3D", "(3b24)", "2200;&   ", "3-D Coordinate field"},
    [KIND_FRID] = {TAG_FRID, "RCNM!RCID!PRIM!GRUP!OBJL!RVER!RUIN", "(b11,b14,2b11,2b12,b11)", ONCE, "Feature record identifier field"},
    [KIND_FOID] = {TAG_FOID, "AGEN!FIDN!FIDS", "(b12,b14,b12)", ONCE, "Feature object identifier field"},
    [KIND_ATTF] = {TAG_ATTF, ATTRIBUTE_LIST "-A ", "Feature record attribute field"},
    [KIND_NATF] = {TAG_NATF, ATTRIBUTE_LIST "-A ", "Feature record national attribute field"},
    [KIND_FFPC] = {TAG_FFPC, "FFUI!FFIX!NFPT", "(b11,2b12)", NULL, NULL},
    [KIND_FFPT] = {TAG_FFPT, "*LNAM!RIND!COMT", "(B(64),b11,A)", "2000;&   ", "Feature record to feature object pointer field"},
    [KIND_FSPC] = {TAG_FSPC, "FSUI!FSIX!NSPT", "(b11,2b12)", NULL, NULL},
    [KIND_FSPT] = {TAG_FSPT, "*NAME!ORNT!USAG!MASK", "(B(40),3b11)", "2000;&   ", "Feature record to spatial record pointer field"},
};

enum kind kind_of(uint32_t tag)
{
    unsigned kind = 0;
    while (kind < KINDS && descriptions[kind].tag != tag)
        kind++;
    return kind;
}

/* ---- format lists written out: a primitive is its letter and its size */

struct list {
    const uint8_t *at, *end;
    size_t count;
    uint32_t written[MOST_WRITTEN];
};

static uint32_t digit_at(const struct list *list)
{
    return list->at < list->end && *list->at >= '0' && *list->at <= '9' ? *list->at - (uint32_t)'0' : 10;
}

/* A number of at most `most` digits without leading zero, or 0 where none stands. */
static uint32_t take_number(struct list *list, unsigned most)
{
    uint32_t number = 0;
    while (most-- > 0 && digit_at(list) <= 9 && number + digit_at(list) > 0)
        number = number * 10 + digit_at(list), list->at++;
    return number;
}

static bool take(struct list *list, uint8_t byte)
{
    if (list->at == list->end || *list->at != byte)
        return false;
    list->at++;
    return true;
}

static bool take_primitive(struct list *list)
{
    uint32_t size = 0;
    if (list->at == list->end || list->count == MOST_WRITTEN)
        return false;
    uint8_t letter = *list->at++;
    if (letter == 'b') {
        for (unsigned i = 0; i < 2; i++) {
            uint32_t digit = digit_at(list);
            if (digit == 0 || digit > 9)
                return false;
            size = size * 10 + digit;
            list->at++;
        }
    } else if (letter != 'A' && letter != 'I' && letter != 'R' && letter != 'B') {
        return false;
    } else if (take(list, '(')) {
        size = take_number(list, 3);
        if (size == 0 || !take(list, ')'))
            return false;
    }
    list->written[list->count++] = letter + 256 * size;
    return true;
}

static bool take_list(struct list *list, unsigned levels)
{
    if (levels == 0 || !take(list, '('))
        return false;
    do {
        uint32_t times = take_number(list, 2);
        size_t from = list->count;
        bool inner = list->at < list->end && *list->at == '(';
        if (!(inner ? take_list(list, levels - 1) : take_primitive(list)))
            return false;
        size_t group = list->count - from;
        for (; times > 1; times--) {
            if (group > MOST_WRITTEN - list->count)
                return false;
            memcpy(list->written + list->count, list->written + from, group * sizeof list->written[0]);
            list->count += group;
        }
    } while (take(list, ','));
    return take(list, ')');
}

bool formats_are(enum kind kind, const uint8_t *text, size_t length)
{
    const char *wanted = descriptions[kind].formats;
    size_t wanted_length = strlen(wanted);
    if (length == wanted_length && memcmp(text, wanted, length) == 0)
        return true;
    struct list said = {.at = text, .end = text + length};
    struct list due = {.at = (const uint8_t *)wanted, .end = (const uint8_t *)wanted + wanted_length};
    return take_list(&said, MOST_LEVELS) && said.at == said.end && take_list(&due, MOST_LEVELS) && said.count == due.count &&
           memcmp(said.written, due.written, said.count * sizeof said.written[0]) == 0;
}
