/* One file: the first of codes 1, 2, 4, 5 and 6 that it gets. Its framing is whole before anything else is told. */
#include "tuned_parts.h"

/* A refusal that is told only if the rest, from record `record` at `at` on, is well framed. */
static void refuse(struct file *file, enum code code, size_t fault, const uint8_t *at, size_t record)
{
    bool framed = frame_rest(file, at, record, &file->records);
    file->code = framed ? code : CODE_FRAME;
    file->fault = framed ? fault : file->records;
}

/* The records before the vectors; returns where these begin, or null where it has refused. */
static const uint8_t *read_heads(struct file *file)
{
    const uint8_t *at = file->bytes, *end = at + file->length;
    const size_t heads = file->update ? 2 : 3;
    struct framed framed;
    for (size_t record = 0; record < heads; record++) {
        if (at == end && record > 0) {
            refuse(file, CODE_LAYOUT, record, at, record);
            return NULL;
        }
        if (!frame_record(at, end, record == 0, &framed)) {
            refuse(file, CODE_FRAME, record, at, record);
            return NULL;
        }
        enum code code = record == 0   ? (described(file, &framed) ? CODE_DONE : CODE_DESCRIBED)
                         : record == 1 ? identification_fault(file, &framed)
                                       : parameters_fault(file, &framed);
        places[file->first + record] = (struct place){at, (uint32_t)(framed.end - at), (uint32_t)(framed.body - at), 0, 0};
        if (code != CODE_DONE) {
            refuse(file, code, record, at, record);
            return NULL;
        }
        at = framed.end;
    }
    return at;
}

void read_file(struct file *file, bool held_lengths)
{
    size_t record = file->update ? 2 : 3;
    struct framed framed;
    if (file->length > LONGEST_FILE) {
        file->code = CODE_LONG;
        return;
    }
    const uint8_t *at = read_heads(file), *end = file->bytes + file->length;
    if (at == NULL)
        return;
    at = walk_items(file, at, &record, held_lengths);
    file->records = record;
    if (at < end) {
        bool broken = !frame_record(at, end, false, &framed) || layout_broken(file, &framed);
        refuse(file, broken ? CODE_LAYOUT : CODE_VALUE, record, at, record);
    }
}

/* ---- which of layout and values a record breaks */

enum { GROUP_TEXT = 0x100 };

/* The bytes of an entry, and whether a text follows them. */
static const uint16_t entries[KINDS] = {
    [KIND_ATTV] = 2 | GROUP_TEXT, [KIND_VRPT] = 9, [KIND_SG2D] = 8, [KIND_SG3D] = 12,
    [KIND_ATTF] = 2 | GROUP_TEXT, [KIND_NATF] = 2 | GROUP_TEXT, [KIND_FFPT] = 9 | GROUP_TEXT, [KIND_FSPT] = 8,
};

static bool entries_fill(const struct field *field, enum kind kind)
{
    const uint8_t *at = field->start, *end = at + field->length - 1;
    const size_t size = entries[kind] & 0xFF;
    if (at == end || (!(entries[kind] & GROUP_TEXT) && (size_t)(end - at) % size != 0))
        return false;
    while (at < end && entries[kind] & GROUP_TEXT) {
        const uint8_t *close = (size_t)(end - at) > size ? memchr(at + size, UNIT_END, (size_t)(end - at) - size) : NULL;
        if (close == NULL)
            return false;
        at = close + 1;
    }
    return true;
}

static bool field_filled(const struct field *field, enum kind kind)
{
    switch (kind) {
    case KIND_0001:
        return field->length == 3;
    case KIND_VRID:
    case KIND_FOID:
        return field->length == 9;
    case KIND_FRID:
        return field->length == 13;
    case KIND_VRPC:
    case KIND_SGCC:
    case KIND_FFPC:
    case KIND_FSPC:
        return field->length == 6;
    default:
        return entries[kind] != 0 && entries_fill(field, kind);
    }
}

static bool may_follow(enum kind kind, enum kind before, bool update)
{
    bool control = kind == KIND_VRPC || kind == KIND_SGCC || kind == KIND_FFPC || kind == KIND_FSPC;
    if (control && !update)
        return false;
    return kind == before ? entries[kind] != 0 : kind > before && !(kind == KIND_SG3D && before == KIND_SG2D);
}

bool layout_broken(const struct file *file, const struct framed *framed)
{
    bool feature = file->chart.names[FEATURE].count > 0 || (framed->count > 1 && framed_field(framed, 1).tag == TAG_FRID);
    const enum kind heads[] = {KIND_0001, feature ? KIND_FRID : KIND_VRID, KIND_FOID}, last = feature ? KIND_FSPT : KIND_SG3D;
    const size_t head_count = feature ? 3 : 2;
    enum kind before = KIND_0001;
    if (framed->count < head_count)
        return true;
    for (size_t i = 0; i < framed->count; i++) {
        struct field field = framed_field(framed, i);
        enum kind kind = kind_of(field.tag);
        if (kind == KINDS || !(file->declared >> kind & 1) || !field_filled(&field, kind))
            return true;
        if (i < head_count ? kind != heads[i] : kind > last || !may_follow(kind, before, file->update))
            return true;
        before = kind;
    }
    return false;
}
