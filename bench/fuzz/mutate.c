#include "mutate.h"

#include "../generators/generate_apply.h"
#include "follow.h"
#include "pieces.h"

#include <string.h>

enum { ROOM_TO_GROW = 48 };

/* ---- parts of a chart, by chance */

/* Rarely 0001. */
static struct chart_field *any_field(struct chart_record *record, struct random *random)
{
    size_t first = record->count > 1 && !random_one_in(random, 16) ? 1 : 0;
    return record->count == 0 ? NULL : &record->field[first + random_below(random, (uint32_t)(record->count - first))];
}

static const struct chart_field *any_identifier(struct chart *chart, struct random *random)
{
    const struct chart_record *record = any_record(chart, random);
    return record == NULL ? NULL : identifier_of(record);
}

static struct place any_entry(const struct chart_field *field, struct random *random)
{
    const struct list_kind *kind = list_kind_of(field);
    size_t index = random_below(random, (uint32_t)entries_of(field)), at = 0;
    for (; index > 0; index--)
        at = entry_end(kind, &field->content, at);
    return (struct place){at, entry_end(kind, &field->content, at) - at};
}

/* Any list of the chart with an entry or more, or null. */
static struct chart_field *any_list(struct chart *chart, struct random *random)
{
    for (unsigned tries = 0; tries < 16; tries++) {
        struct chart_record *record = any_record(chart, random);
        struct chart_field *field = record == NULL ? NULL : any_field(record, random);
        if (field != NULL && list_kind_of(field) != NULL && field->content.length > 0)
            return field;
    }
    return NULL;
}

/* ---- changes of a chart; of `both` the first is the one to change, the second the other file's */

typedef void changer(struct chart *const both[2], byte_changer *change, struct random *random);

static void change_content(struct chart *const both[2], byte_changer *change, struct random *random)
{
    struct chart_record *record = any_record(both[0], random);
    struct chart_field *field = record == NULL ? NULL : any_field(record, random);
    if (field == NULL)
        return;
    size_t length = field->content.length;
    buffer_more(&field->content, ROOM_TO_GROW);
    field->content.length = change(field->content.bytes, length, length + ROOM_TO_GROW);
}

/* Numbers that document 01 speaks of, and those beside them. */
static uint64_t telling_number(uint64_t before, struct random *random)
{
    static const uint32_t telling[] = {0,   1,   2,     3,      4,         7,          10,         20,         99,      100,        110,        120,    130,
                                       255, 254, 299,   300,    399,       400,        401,        402,        999,     9999,       10000000,   0x7F,   0x80,
                                       0xA0, 65534, 65535, 900000000, 1800000000, 0xCA5B1700, 0x94B62E00, 0x7FFFFFFF, 0x80000000, 0xFFFFFFFE, 0xFFFFFFFF};
    switch (random_below(random, 4)) {
    case 0:
        return before + 1;
    case 1:
        return before - 1;
    default:
        return telling[random_below(random, sizeof telling / sizeof telling[0])];
    }
}

static void change_number(struct chart *const both[2], byte_changer *change, struct random *random)
{
    static const unsigned widths[] = {1, 1, 2, 4};
    struct chart_record *record = any_record(both[0], random);
    struct chart_field *field = record == NULL ? NULL : any_field(record, random);
    unsigned width = widths[random_below(random, 4)];
    (void)change;
    if (field == NULL || field->content.length < width)
        return;
    uint8_t *at = field->content.bytes + random_below(random, (uint32_t)(field->content.length - width + 1));
    /* most subfields of one byte have few values */
    static const uint8_t few[] = {0, 1, 2, 3, 4, 255};
    bool usual = width == 1 && random_one_in(random, 2);
    set_number(at, width, usual ? few[random_below(random, sizeof few)] : telling_number(get_number(at, width), random));
}

/* An entry comes again, goes, or changes places with another one of its size. */
static void change_entries(struct chart *const both[2], byte_changer *change, struct random *random)
{
    struct chart_field *field = any_list(both[0], random);
    (void)change;
    if (field == NULL)
        return;
    struct place entry = any_entry(field, random), other = any_entry(field, random);
    uint8_t *bytes = field->content.bytes;
    switch (random_below(random, 4)) {
    case 0:
        buffer_remove(&field->content, entry.start, entry.length);
        break;
    case 1:
        bytes = buffer_open(&field->content, entry.start + entry.length, entry.length);
        memcpy(bytes, bytes - entry.length, entry.length);
        break;
    default:
        for (size_t i = 0; entry.length == other.length && i < entry.length; i++) {
            uint8_t kept = bytes[entry.start + i];
            bytes[entry.start + i] = bytes[other.start + i];
            bytes[other.start + i] = kept;
        }
    }
}

/* A list in two fields. */
static void split_list(struct chart *const both[2], byte_changer *change, struct random *random)
{
    struct chart_record *record = any_record(both[0], random);
    (void)change;
    for (size_t at = 0; record != NULL && at < record->count; at++) {
        const struct chart_field *field = &record->field[at];
        if (list_kind_of(field) == NULL || field->content.length == 0 || !random_one_in(random, 3))
            continue;
        size_t cut = any_entry(field, random).start, length = field->content.length;
        struct chart_field *later = insert_field(record, at + 1, "    ");
        memcpy(later->tag, record->field[at].tag, TAG);
        buffer_put(&later->content, record->field[at].content.bytes + cut, length - cut);
        record->field[at].content.length = cut;
        at++;
    }
}

static struct chart_field copy_field(const struct chart_field *field)
{
    struct chart_field copy = {0};
    memcpy(copy.tag, field->tag, TAG);
    buffer_put(&copy.content, field->content.bytes, field->content.length);
    return copy;
}

/* A field goes, comes again, changes places, gets another tag, or is taken from another record of either file. */
static void change_fields(struct chart *const both[2], byte_changer *change, struct random *random)
{
    struct chart_record *record = any_record(both[0], random), *other = any_record(both[random_below(random, 2)], random);
    (void)change;
    if (record == NULL || other == NULL || record->count == 0 || other->count == 0)
        return;
    size_t at = random_below(random, (uint32_t)record->count), to = random_below(random, (uint32_t)record->count);
    struct chart_field copy = record->field[at];
    switch (random_below(random, 5)) {
    case 0:
        remove_field(record, at);
        break;
    case 1:
        record->field[at] = record->field[to];
        record->field[to] = copy;
        break;
    case 2:
        memcpy(record->field[at].tag, tag_rows[random_below(random, TAGS)].tag, TAG);
        break;
    case 3:
        copy = copy_field(&record->field[at]);
        *insert_field(record, to, NULL) = copy;
        break;
    default:
        copy = copy_field(any_field(other, random));
        *insert_field(record, to + 1, NULL) = copy;
    }
}

/* A record goes, comes again, mostly with another id, changes places, or is taken from the other file. */
static void change_records(struct chart *const both[2], byte_changer *change, struct random *random)
{
    struct chart *chart = both[0];
    struct chart_record *record = any_record(chart, random), *other = any_record(both[random_below(random, 2)], random), copy;
    (void)change;
    if (record == NULL || other == NULL || chart->list.count < 2)
        return;
    size_t at = (size_t)(record - chart->list.record), to = random_between(random, 1, (uint32_t)chart->list.count);
    switch (random_below(random, 4)) {
    case 0:
        remove_record(&chart->list, at);
        break;
    case 1:
        copy = *record;
        record[0] = chart->list.record[to - 1];
        chart->list.record[to - 1] = copy;
        break;
    default:
        copy = copy_record(other);
        if (identifier_of(&copy) != NULL && !random_one_in(random, 4))
            set_number(identifier_of(&copy)->content.bytes + 1, 4, random_between(random, 1, 300));
        *insert_record(&chart->list, to) = copy;
    }
}

/* A pointer gets the name or the FOID of a record that is there. */
static void change_pointer(struct chart *const both[2], byte_changer *change, struct random *random)
{
    enum { LNAM = 8, FOID_FIELD = 2 };
    struct chart_field *field = any_list(both[0], random);
    struct chart_record *named = any_record(both[random_below(random, 2)], random);
    (void)change;
    if (field == NULL || named == NULL || identifier_of(named) == NULL)
        return;
    struct place entry = any_entry(field, random);
    uint8_t *at = field->content.bytes + entry.start;
    if ((has_tag(field, "VRPT") || has_tag(field, "FSPT")) && entry.length >= NAME)
        memcpy(at, identifier_of(named)->content.bytes, NAME);
    else if (has_tag(field, "FFPT") && entry.length >= LNAM && named->count > FOID_FIELD && named->field[FOID_FIELD].content.length >= LNAM)
        memcpy(at, named->field[FOID_FIELD].content.bytes, LNAM);
}

/* Record 0 written anew, in another legal way. */
static void change_description(struct chart *const both[2], byte_changer *change, struct random *random)
{
    (void)change;
    if (both[0]->list.count > 0)
        describe_chart(both[0], random_one_in(random, 4), random);
}

/* Something more in the format list of a field of record 0, which stands behind its last 1F. */
static void change_formats(struct chart *const both[2], byte_changer *change, struct random *random)
{
    static const char *const more[] = {"1", "2", "9", "33", "99", "(", ")", ",", "A", "b11,", "R(4),", "(2A),", "((((", "))))", "17(2b11),", "32A,", "(1", "0"};
    (void)change;
    if (both[0]->list.count == 0 || both[0]->list.record[0].count < 2)
        return;
    struct chart_record *first = &both[0]->list.record[0];
    struct buffer *content = &first->field[random_between(random, 1, (uint32_t)first->count - 1)].content;
    size_t formats = content->length;
    while (formats > 0 && content->bytes[formats - 1] != UNIT_END)
        formats--;
    const char *text = more[random_below(random, sizeof more / sizeof more[0])];
    size_t at = formats + random_below(random, (uint32_t)(content->length - formats + 1));
    memcpy(buffer_open(content, at, strlen(text)), text, strlen(text));
}

/* ---- an input */

/* Call, lengths and name; of the lengths mostly what suffices. */
static void change_call(struct input *input, struct chart charts[FILES], struct random *random)
{
    const struct chart_field *named = any_identifier(&charts[random_below(random, FILES)], random);
    switch (random_below(random, 6)) {
    case 0:
        input->call = (uint8_t)random_below(random, CALLS);
        break;
    case 1:
        input->work = random_one_in(random, 2) ? 0 : (uint8_t)random_below(random, 8);
        break;
    case 2:
        input->out = random_one_in(random, 2) ? 0 : (uint8_t)random_below(random, 8);
        break;
    case 3:
        input->answer = random_one_in(random, 2) ? 0 : random_byte(random);
        break;
    case 4:
        input->class = (uint32_t)telling_number(input->class, random);
        break;
    default:
        if (named != NULL) {
            input->class = named->content.bytes[0];
            input->id = (uint32_t)get_number(named->content.bytes + 1, 4);
        }
    }
}

static void change_chart(struct chart *const both[2], byte_changer *change, struct random *random)
{
    static changer *const often[] = {change_content, change_content, change_content, change_number,  change_number,  change_number,  change_entries, change_entries,
                                     split_list,     change_fields,  change_fields,  change_records, change_records, change_pointer, change_pointer,
                                     change_description, change_formats};
    for (uint32_t times = 1 + random_below(random, 1 + random_below(random, 4)); times > 0; times--)
        often[random_below(random, sizeof often / sizeof often[0])](both, change, random);
}

/* Good files, new from the generators, in the place of the input's own: one change of a good file says more than one of a file that is refused anyway. */
static void begin_anew(struct input *input, struct random *random)
{
    enum { EVERY = 8, SEEDS = 1 << 28 }; /* seeds that 8 divides make good cases */
    uint64_t seed = (uint64_t)EVERY * random_below(random, SEEDS);
    input_free(input);
    input->stretches = 0;
    if (has_update(input)) {
        struct apply_case made = apply_case_make(seed);
        input->file[CELL] = made.cell;
        input->file[UPDATE] = made.update;
        buffer_free(&made.held);
    } else {
        input->file[CELL] = judge_case_make(seed).cell;
    }
}

bool change_input(struct input *input, byte_changer *change, struct random *random)
{
    struct chart charts[FILES] = {{0}, {0}};
    if (random_one_in(random, 3))
        begin_anew(input, random);
    bool framed[FILES] = {take_apart(&input->file[CELL], false, &charts[CELL]), take_apart(&input->file[UPDATE], true, &charts[UPDATE])};
    enum file file = has_update(input) && framed[UPDATE] && !random_one_in(random, 3) ? UPDATE : CELL;
    bool changed = framed[file] && !random_one_in(random, 16);
    if (changed && random_one_in(random, 8)) {
        change_call(input, charts, random);
    } else if (changed) {
        struct chart *const both[2] = {&charts[file], &charts[FILES - 1 - file]};
        change_chart(both, change, random);
        if (!random_one_in(random, 8))
            put_counts(&charts[CELL]);
        if (has_update(input) && framed[CELL] && framed[UPDATE] && random_one_in(random, 2))
            follow_cell(&charts[CELL], &charts[UPDATE], random);
        for (enum file each = 0; each < FILES; each++)
            if (framed[each])
                put_together(&charts[each], &input->file[each], random);
    }
    chart_free(&charts[CELL]);
    chart_free(&charts[UPDATE]);
    return changed;
}

/* ---- two inputs */

static void take_file(struct input *input, const struct input *other, enum file file)
{
    input->file[file].length = 0;
    buffer_put(&input->file[file], other->file[file].bytes, other->file[file].length);
}

void cross_input(struct input *input, const struct input *other, struct random *random)
{
    enum file file = has_update(input) && random_one_in(random, 2) ? UPDATE : CELL;
    struct chart chart = {0}, from = {0};
    bool framed = take_apart(&input->file[file], file == UPDATE, &chart) && take_apart(&other->file[file], file == UPDATE, &from);
    if (!framed || from.list.count < 2 || random_one_in(random, 4)) {
        take_file(input, other, file);
    } else {
        size_t to = random_between(random, 1, (uint32_t)chart.list.count);
        struct chart_record copy = copy_record(any_record(&from, random));
        *insert_record(&chart.list, to) = copy;
        put_counts(&chart);
        put_together(&chart, &input->file[file], random);
    }
    chart_free(&chart);
    chart_free(&from);
}
