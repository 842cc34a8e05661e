/* "Values": every rule on the content of subfields, tried field by field and in each field subfield by subfield. A function returns the
   offset of the first subfield that breaks a rule, or FINE. */
#include "reader_parts.h"

#include <string.h>

enum { REMOVED = 0x7F };

static const uint32_t GREATEST_ID = UINT32_C(4294967294);
static const uint32_t GREATEST_COMF = 10000000;

/* ---- texts */

static inline bool is_digit(uint8_t byte)
{
    return byte >= '0' && byte <= '9';
}

static inline bool is_name_byte(uint8_t byte)
{
    return is_digit(byte) || (byte >= 'A' && byte <= 'Z');
}

static inline bool is_text_byte(uint8_t byte, bool high)
{
    return (byte >= 0x20 && byte <= 0x7E) || (high && byte >= 0xA0);
}

/* Of a text that layout found closed. */
static size_t text_length(const uint8_t *text)
{
    size_t length = 0;
    while (text[length] != UNIT_END)
        length++;
    return length;
}

static bool is_text(const uint8_t *text, size_t length)
{
    for (size_t i = 0; i < length; i++)
        if (!is_text_byte(text[i], false))
            return false;
    return true;
}

/* The number of one to `most` digits, or -1. */
static int32_t digits_number(const uint8_t *text, size_t length, size_t most)
{
    int32_t number = 0;
    if (length == 0 || length > most)
        return -1;
    for (size_t i = 0; i < length; i++) {
        if (!is_digit(text[i]))
            return -1;
        number = number * 10 + (text[i] - '0');
    }
    return number;
}

static bool is_date(const uint8_t *text)
{
    static const int32_t lengths[] = {31, 28, 31, 30, 31, 30, 31, 31, 30, 31, 30, 31};
    int32_t year = digits_number(text, 4, 4), month = digits_number(text + 4, 2, 2), day = digits_number(text + 6, 2, 2);
    if (year < 1 || month < 1 || month > 12 || day < 1)
        return false;
    bool leap = year % 4 == 0 && (year % 100 != 0 || year % 400 == 0);
    return day <= lengths[month - 1] + (month == 2 && leap);
}

/* ---- DSID, DSSI, DSPM */

/* Its last three digits are judged here only as digits in an update: that they are UPDN is a matter of UPDN, the later of the two. */
static bool is_data_set_name(const uint8_t *text, size_t length, uint8_t intended_use, bool update)
{
    if (length != 12 || text[2] != '0' + intended_use || text[8] != '.')
        return false;
    for (size_t i = 0; i < 8; i++)
        if (!is_name_byte(text[i]))
            return false;
    return update ? digits_number(text + 9, 3, 3) >= 0 : memcmp(text + 9, "000", 3) == 0;
}

static bool is_update_number(const uint8_t *text, size_t length, const uint8_t *name, bool update)
{
    int32_t number = digits_number(text, length, 3);
    return update ? number > 0 && number == digits_number(name + 9, 3, 3) : number >= 0;
}

/* From UADT on, the file's offset `at`. */
static size_t dsid_rest_fault(const struct reading *reading, size_t at)
{
    const uint8_t *bytes = reading->bytes;
    if (reading->update ? !is_text(bytes + at, 8) : !is_date(bytes + at))
        return at;
    if (!is_date(bytes + at + 8))
        return at + 8;
    if (memcmp(bytes + at + 16, "03.1", 4) != 0)
        return at + 16;
    if (bytes[at + 20] != 1)
        return at + 20;
    at += 21;
    if (bytes[at] != UNIT_END)
        return at;
    at += 1;
    if (text_length(bytes + at) != 3 || memcmp(bytes + at, "2.0", 3) != 0)
        return at;
    at += 4;
    if (bytes[at] != (reading->update ? 2 : 1))
        return at;
    at += 3;
    return is_text(bytes + at, text_length(bytes + at)) ? FINE : at;
}

static bool is_id(const uint8_t *at)
{
    uint32_t id = number_at(at, 4);
    return id >= 1 && id <= GREATEST_ID;
}

static size_t dsid_fault(const struct reading *reading, size_t start)
{
    const uint8_t *bytes = reading->bytes, *dsid = bytes + start;
    uint8_t intended_use = dsid[6];
    if (dsid[0] != 10)
        return start;
    if (!is_id(dsid + 1))
        return start + 1;
    if (dsid[5] != (reading->update ? 2 : 1))
        return start + 5;
    if (intended_use < 1 || intended_use > 6)
        return start + 6;
    size_t name = start + 7, name_length = text_length(bytes + name);
    if (!is_data_set_name(bytes + name, name_length, intended_use, reading->update))
        return name;
    size_t edition = name + name_length + 1, edition_length = text_length(bytes + edition);
    if (digits_number(bytes + edition, edition_length, 4) < 1)
        return edition;
    size_t number = edition + edition_length + 1, number_length = text_length(bytes + number);
    if (!is_update_number(bytes + number, number_length, bytes + name, reading->update))
        return number;
    return dsid_rest_fault(reading, number + number_length + 1);
}

static size_t dssi_fault(struct reading *reading, size_t start)
{
    enum { NOCR = 1, NOFA = 7 };
    const uint8_t *dssi = reading->bytes + start;
    if (dssi[0] != 2)
        return start;
    if (dssi[1] > 1)
        return start + 1;
    if (dssi[2] > 1)
        return start + 2;
    reading->high_attributes = dssi[1] == 1;
    reading->high_national = dssi[2] == 1;
    for (size_t i = 0; i < HEADS; i++) {
        reading->said[i] = number_at(dssi + 3 + 4 * i, 4);
        if (!reading->update && (i == NOCR || i == NOFA) && reading->said[i] != 0)
            return start + 3 + 4 * i;
    }
    return FINE;
}

static size_t dspm_fault(struct reading *reading, size_t start)
{
    enum { HDAT = 5, DUNI = 12, HUNI, PUNI, COUN, COMF = 16, SOMF = 20, COMT = 24 };
    const uint8_t *dspm = reading->bytes + start;
    if (dspm[0] != 20)
        return start;
    if (!is_id(dspm + 1))
        return start + 1;
    if (dspm[HDAT] != 2)
        return start + HDAT;
    for (size_t i = DUNI; i <= COUN; i++)
        if (dspm[i] != 1)
            return start + i;
    reading->comf = number_at(dspm + COMF, 4);
    if (reading->comf < 1 || reading->comf > GREATEST_COMF)
        return start + COMF;
    if (number_at(dspm + SOMF, 4) != 10)
        return start + SOMF;
    return is_text(dspm + COMT, text_length(dspm + COMT)) ? FINE : start + COMT;
}

/* ---- identifiers of vectors and features */

/* RVER and RUIN stand side by side in both. */
static size_t version_fault(const struct reading *reading, size_t at)
{
    const uint8_t *version = reading->bytes + at;
    if (number_at(version, 2) < 1)
        return at;
    return version[2] >= 1 && version[2] <= (reading->update ? 3 : 1) ? FINE : at + 2;
}

static size_t vrid_fault(const struct reading *reading, size_t start)
{
    const uint8_t *vrid = reading->bytes + start;
    if (vrid[0] != 110 && vrid[0] != 120 && vrid[0] != 130)
        return start;
    if (!is_id(vrid + 1))
        return start + 1;
    return version_fault(reading, start + 5);
}

static size_t frid_fault(const struct reading *reading, size_t start)
{
    enum { PRIM = 5, OBJL = 7, RVER = 9, LAST_CLASS = 401 };
    const uint8_t *frid = reading->bytes + start;
    uint8_t primitive = frid[PRIM];
    uint32_t class = number_at(frid + OBJL, 2);
    if (frid[0] != 100)
        return start;
    if (!is_id(frid + 1))
        return start + 1;
    if ((primitive < 1 || primitive > 3) && primitive != 255)
        return start + PRIM;
    if (class < 1 || class > LAST_CLASS)
        return start + OBJL;
    return version_fault(reading, start + RVER);
}

/* ---- lists */

/* Whether the label was met in the list at hand before; from now on it was. */
static bool met_before(struct reading *reading, uint32_t label)
{
    bool met = reading->met[label] == reading->list;
    reading->met[label] = reading->list;
    return met;
}

static size_t attributes_fault(struct reading *reading, const struct field *field, bool high)
{
    const uint8_t *bytes = reading->bytes;
    size_t at = field->start, end = field->start + field->length - 1;
    while (at < end) {
        if (met_before(reading, number_at(bytes + at, 2)))
            return at;
        size_t value = at + 2;
        for (at = value; bytes[at] != UNIT_END; at++) {
            bool removal = reading->update && bytes[at] == REMOVED && at == value && bytes[at + 1] == UNIT_END;
            if (!is_text_byte(bytes[at], high) && !removal)
                return value;
        }
        at++;
    }
    return FINE;
}

static size_t ffpt_fault(const struct reading *reading, const struct field *field)
{
    enum { RIND = 8, COMT = 9 };
    const uint8_t *bytes = reading->bytes;
    size_t at = field->start, end = field->start + field->length - 1;
    while (at < end) {
        if (bytes[at + RIND] != 2 && bytes[at + RIND] != 3)
            return at + RIND;
        size_t comment = at + COMT, length = text_length(bytes + comment);
        if (!is_text(bytes + comment, length))
            return comment;
        at = comment + length + 1;
    }
    return FINE;
}

/* ---- a record */

static size_t field_fault(struct reading *reading, const struct field *field)
{
    switch (field->tag) {
    case TAG_DSID:
        return dsid_fault(reading, field->start);
    case TAG_DSSI:
        return dssi_fault(reading, field->start);
    case TAG_DSPM:
        return dspm_fault(reading, field->start);
    case TAG_VRID:
        return vrid_fault(reading, field->start);
    case TAG_FRID:
        return frid_fault(reading, field->start);
    case TAG_ATTV:
        return attributes_fault(reading, field, false);
    case TAG_ATTF:
        return attributes_fault(reading, field, reading->high_attributes);
    case TAG_NATF:
        return attributes_fault(reading, field, reading->high_national);
    case TAG_FFPT:
        return ffpt_fault(reading, field);
    default:
        return FINE;
    }
}

size_t value_fault(struct reading *reading)
{
    uint32_t tag = 0;
    for (size_t i = 0; i < reading->field_count; i++) {
        const struct field *field = &reading->fields[i];
        /* repeats of a tag are one list */
        reading->list += field->tag != tag;
        tag = field->tag;
        size_t fault = field_fault(reading, field);
        if (fault != FINE)
            return fault;
    }
    return FINE;
}
