/* Records 0 to 2 of a cell, 0 and 1 of an update: one of each, so nothing here is in a hurry. */
#include "tuned_parts.h"

/* ---- record 0 (4) */

static bool says(const struct field *field, enum kind kind)
{
    enum { CONTROLS = 9 };
    if (field->length <= CONTROLS)
        return false;
    const uint8_t *name = field->start + CONTROLS, *last = field->start + field->length - 1;
    const uint8_t *labels = memchr(name, UNIT_END, (size_t)(last - name));
    if (labels++ == NULL)
        return false;
    const uint8_t *formats = memchr(labels, UNIT_END, (size_t)(last - labels));
    size_t wanted = strlen(descriptions[kind].labels);
    if (formats == NULL || (size_t)(formats - labels) != wanted || memcmp(labels, descriptions[kind].labels, wanted) != 0)
        return false;
    return formats_are(kind, formats + 1, (size_t)(last - (formats + 1)));
}

bool described(struct file *file, const struct framed *framed)
{
    if (framed->count < 2 || framed_field(framed, 0).tag != TAG_0000)
        return false;
    for (size_t i = 1; i < framed->count; i++) {
        struct field field = framed_field(framed, i);
        enum kind kind = kind_of(field.tag);
        if (kind == KINDS || (kind == KIND_0001) != (i == 1) || file->declared >> kind & 1 || !says(&field, kind))
            return false;
        file->declared |= UINT32_C(1) << kind;
    }
    return true;
}

/* ---- texts */

/* The number of a text of one to `most` digits, or -1. */
static int32_t number_of(const uint8_t *text, size_t length, size_t most)
{
    int32_t number = 0;
    if (length == 0 || length > most)
        return -1;
    for (size_t i = 0; i < length; i++) {
        if (text[i] < '0' || text[i] > '9')
            return -1;
        number = number * 10 + (text[i] - '0');
    }
    return number;
}

static bool is_text(const uint8_t *text, size_t length)
{
    for (size_t i = 0; i < length; i++)
        if (text[i] < 0x20 || text[i] > 0x7E)
            return false;
    return true;
}

static bool is_date(const uint8_t *text)
{
    static const int8_t days[] = {31, 28, 31, 30, 31, 30, 31, 31, 30, 31, 30, 31};
    int32_t year = number_of(text, 4, 4), month = number_of(text + 4, 2, 2), day = number_of(text + 6, 2, 2);
    if (year < 1 || month < 1 || month > 12 || day < 1)
        return false;
    bool leap = year % 4 == 0 && (year % 100 != 0 || year % 400 == 0);
    return day <= days[month - 1] + (month == 2 && leap);
}

/* ---- DSID and DSSI */

enum { NUMBERS = 7, TEXTS = 3, LATER_TEXTS = 2 };

/* DSNM, EDTN, UPDN; PSDN, PRED; COMT. */
struct identification {
    const uint8_t *text[TEXTS], *dates, *later[LATER_TEXTS], *profile, *comment;
    size_t length[TEXTS], later_length[LATER_TEXTS], comment_length;
};

static bool take_text(const uint8_t **at, const uint8_t *end, const uint8_t **text, size_t *length)
{
    const uint8_t *close = *at < end ? memchr(*at, UNIT_END, (size_t)(end - *at)) : NULL;
    if (close == NULL)
        return false;
    *text = *at;
    *length = (size_t)(close - *at);
    *at = close + 1;
    return true;
}

static bool cut_identification(const struct field *field, struct identification *cut)
{
    enum { DATES = 21, PROFILE = 3 };
    const uint8_t *at = field->start + NUMBERS, *end = field->start + field->length - 1;
    if (end - field->start < NUMBERS)
        return false;
    for (size_t i = 0; i < TEXTS; i++)
        if (!take_text(&at, end, &cut->text[i], &cut->length[i]))
            return false;
    if (end - at < DATES)
        return false;
    cut->dates = at;
    at += DATES;
    for (size_t i = 0; i < LATER_TEXTS; i++)
        if (!take_text(&at, end, &cut->later[i], &cut->later_length[i]))
            return false;
    if (end - at < PROFILE)
        return false;
    cut->profile = at;
    at += PROFILE;
    return take_text(&at, end, &cut->comment, &cut->comment_length) && at == end;
}

static bool is_name(const uint8_t *text, size_t length, uint8_t use)
{
    if (length != 12 || text[2] != '0' + use || text[8] != '.')
        return false;
    for (size_t i = 0; i < 8; i++)
        if (!((text[i] >= '0' && text[i] <= '9') || (text[i] >= 'A' && text[i] <= 'Z')))
            return false;
    return true;
}

static bool is_id(const uint8_t *at)
{
    return four(at) - 1 < UINT32_C(0xFFFFFFFE);
}

static bool identification_good(const struct file *file, const uint8_t *dsid, const struct identification *cut)
{
    uint8_t profile = file->update ? 2 : 1;
    if (dsid[0] != 10 || !is_id(dsid + 1) || dsid[5] != profile || dsid[6] < 1 || dsid[6] > 6 || !is_name(cut->text[0], cut->length[0], dsid[6]))
        return false;
    int32_t suffix = number_of(cut->text[0] + 9, 3, 3), number = number_of(cut->text[2], cut->length[2], 3);
    if (suffix < 0 || number < 0 || (file->update ? number == 0 || number != suffix : suffix != 0) || number_of(cut->text[1], cut->length[1], 4) < 1)
        return false;
    if (!(file->update ? is_text(cut->dates, 8) : is_date(cut->dates)) || !is_date(cut->dates + 8) || memcmp(cut->dates + 16, "03.1\1", 5) != 0)
        return false;
    return cut->later_length[0] == 0 && cut->later_length[1] == 3 && memcmp(cut->later[1], "2.0", 3) == 0 && cut->profile[0] == profile &&
           is_text(cut->comment, cut->comment_length);
}

static bool structure_good(struct file *file, const uint8_t *dssi)
{
    if (dssi[0] != 2 || dssi[1] > 1 || dssi[2] > 1)
        return false;
    file->high_attributes = dssi[1] == 1;
    file->high_national = dssi[2] == 1;
    memcpy(file->said, dssi + 3, sizeof file->said);
    return file->update || (file->said[NOCR] == 0 && file->said[NOFA] == 0);
}

static bool declares(const struct file *file, enum kind kind)
{
    return file->declared >> kind & 1;
}

enum code identification_fault(struct file *file, const struct framed *framed)
{
    struct identification cut;
    if (framed->count != 3)
        return CODE_LAYOUT;
    struct field number = framed_field(framed, 0), dsid = framed_field(framed, 1), dssi = framed_field(framed, 2);
    if (number.tag != TAG_0001 || number.length != 3 || dsid.tag != TAG_DSID || !declares(file, KIND_DSID) || dssi.tag != TAG_DSSI ||
        !declares(file, KIND_DSSI) || dssi.length != 36 || !cut_identification(&dsid, &cut))
        return CODE_LAYOUT;
    file->dsid = dsid.start;
    file->dsid_length = dsid.length;
    file->dssi = dssi.start;
    return identification_good(file, dsid.start, &cut) && structure_good(file, dssi.start) ? CODE_DONE : CODE_VALUE;
}

/* ---- DSPM */

enum code parameters_fault(struct file *file, const struct framed *framed)
{
    enum { HDAT = 5, DUNI = 12, COMF = 16, SOMF = 20, COMT = 24, GREATEST_COMF = 10000000 };
    if (framed->count != 2)
        return CODE_LAYOUT;
    struct field number = framed_field(framed, 0), field = framed_field(framed, 1);
    const uint8_t *dspm = field.start, *last = dspm + field.length - 1;
    if (number.tag != TAG_0001 || number.length != 3 || field.tag != TAG_DSPM || !declares(file, KIND_DSPM) || last - dspm <= COMT ||
        memchr(dspm + COMT, UNIT_END, (size_t)(last - (dspm + COMT))) != last - 1)
        return CODE_LAYOUT;
    uint32_t comf = four(dspm + COMF);
    file->north = 90 * comf;
    bool good = dspm[0] == 20 && is_id(dspm + 1) && dspm[HDAT] == 2 && four(dspm + DUNI) == UINT32_C(0x01010101) &&
                comf - 1 < GREATEST_COMF && four(dspm + SOMF) == 10 && is_text(dspm + COMT, (size_t)(last - 1 - (dspm + COMT)));
    return good ? CODE_DONE : CODE_VALUE;
}
