/* "Updates" and Apply: whether the update follows the cell (9 to 12), its records one by one in its own order (13 to 16), then the chart that comes of it,
   whose topology is judged and which is written as any other. */
#include "reader_parts.h"

#include <stdlib.h>
#include <string.h>

enum { INSERT = 1, DELETE = 2, FEATURE = 100, FIRST_ITEM = 3, NAME_LENGTH = 8, DSNM = 7, EDTN = DSNM + 12 + 1 };

/* ---- 9 to 12 */

/* The number of a text of digits; `text` is set behind its 1F. */
static uint32_t take_number(const uint8_t **text)
{
    uint32_t number = 0;
    for (; **text != UNIT_END; ++*text)
        number = number * 10 + (**text - (uint32_t)'0');
    ++*text;
    return number;
}

static enum code follow_fault(const struct reading *cell, const struct reading *update)
{
    const uint8_t *held = header_field(cell, 1), *said = header_field(update, 1);
    if (memcmp(held + DSNM, said + DSNM, NAME_LENGTH) != 0)
        return CODE_OTHER;
    held += EDTN;
    said += EDTN;
    if (take_number(&held) != take_number(&said))
        return CODE_EDITION;
    if (take_number(&held) + 1 != take_number(&said))
        return CODE_NUMBER;
    if (cell->high_attributes != update->high_attributes || cell->high_national != update->high_national)
        return CODE_LEVEL;
    return CODE_DONE;
}

/* ---- 13 to 16 */

/* What becomes of a vector or feature of the cell: it stays, goes, or is the changed one of number `fate` - CHANGED. */
enum { STAYS = 0, GOES = 1, CHANGED = 2 };

struct merging {
    struct reading *cell, *update;
    struct result result;
    struct editing editing;
    uint32_t *fates;    /* of each name of the cell */
    uint64_t *inserted; /* name words of the update */
    size_t insert_count;
    struct reading chart; /* the result */
};

/* RVER stands behind RCNM and RCID in a vector, and behind PRIM, GRUP and OBJL too in a feature; RUIN follows it. */
static const uint8_t *version_at(const uint8_t *identifier)
{
    return identifier + (identifier[0] == FEATURE ? 9 : 5);
}

/* PRIM, GRUP and OBJL stand side by side; FOID has 8 bytes. */
static bool same_identity(const struct reading *cell, const struct reading *update)
{
    const uint8_t *held = cell->from + cell->fields[1].start, *said = update->from + update->fields[1].start;
    if (held[0] != FEATURE)
        return true;
    return memcmp(held + 5, said + 5, 4) == 0 &&
           memcmp(cell->from + cell->fields[2].start, update->from + update->fields[2].start, 8) == 0;
}

static enum code insert(struct merging *merging, const uint8_t *identifier, size_t start)
{
    if (number_at(version_at(identifier), 2) != 1)
        return CODE_VERSION;
    if (!insert_allowed(merging->update))
        return CODE_EDIT;
    merging->inserted[merging->insert_count++] = name_word(identifier, start);
    merging->chart.counted[head_of(identifier)]++;
    return CODE_DONE;
}

/* The record at hand in the update, on the record of the cell that has its name. */
static enum code change(struct merging *merging, const uint8_t *identifier, size_t index)
{
    struct reading *cell = merging->cell;
    load_record(cell, cell->bytes, record_of(cell->names[index]));
    const uint8_t *held = cell->from + cell->fields[1].start, *version = version_at(identifier);
    if (number_at(version, 2) != number_at(version_at(held), 2) + 1)
        return CODE_VERSION;
    if (!same_identity(cell, merging->update))
        return CODE_IDENTITY;
    if (version[2] == DELETE) {
        merging->fates[index] = GOES;
        merging->chart.counted[head_of(held)]--;
        return delete_allowed(merging->update) ? CODE_DONE : CODE_EDIT;
    }
    merging->fates[index] = (uint32_t)(CHANGED + merging->result.changed_count);
    return edit_record(&merging->editing, cell, merging->update) ? CODE_DONE : CODE_EDIT;
}

static enum code work_in(struct merging *merging, size_t start)
{
    struct reading *update = merging->update;
    load_record(update, update->bytes, start);
    const uint8_t *identifier = update->from + update->fields[1].start;
    size_t held = find_name(merging->cell, identifier[0], number_at(identifier + 1, 4));
    bool inserts = version_at(identifier)[2] == INSERT;
    if (inserts != (held == FINE))
        return CODE_TARGET;
    return inserts ? insert(merging, identifier, start) : change(merging, identifier, held);
}

static struct answer work_in_all(struct merging *merging)
{
    const struct reading *update = merging->update;
    size_t start = reader_record(update->bytes, reader_record(update->bytes, 0).end).end;
    for (size_t index = 2; index < update->records; index++) {
        enum code code = work_in(merging, start);
        if (code != CODE_DONE)
            return (struct answer){.code = code, .file = 2, .record = (uint32_t)index, .offset = (uint32_t)start};
        start = reader_record(update->bytes, start).end;
    }
    return (struct answer){0};
}

/* ---- the result */

static void add_item(struct merging *merging, uint64_t word, struct source source)
{
    struct reading *chart = &merging->chart;
    merging->result.sources[chart->name_count] = source;
    chart->names[chart->name_count++] = word;
}

static void add_held(struct merging *merging, size_t index)
{
    uint64_t word = merging->cell->names[index];
    uint32_t fate = merging->fates[index];
    if (fate == STAYS)
        add_item(merging, word, (struct source){OF_CELL, record_of(word)});
    else if (fate >= CHANGED)
        add_item(merging, word, (struct source){OF_BOTH, fate - CHANGED});
}

/* Both rows of names are in held order, and none stands in both. */
static void merge(struct merging *merging)
{
    const struct reading *cell = merging->cell;
    const uint64_t *next = merging->inserted, *end = next + merging->insert_count;
    sort_words(merging->inserted, merging->insert_count);
    for (size_t index = 0; index < cell->name_count; index++) {
        for (; next < end && *next < cell->names[index]; next++)
            add_item(merging, *next, (struct source){OF_UPDATE, record_of(*next)});
        add_held(merging, index);
    }
    for (; next < end; next++)
        add_item(merging, *next, (struct source){OF_UPDATE, record_of(*next)});
    merging->chart.records = FIRST_ITEM + merging->chart.name_count;
}

/* The result has the cell's bytes for what isn't changed, and its memory for the record at hand. */
static void merging_open(struct merging *merging, struct reading *cell, struct reading *update)
{
    size_t most = cell->name_count + update->name_count;
    *merging = (struct merging){.cell = cell, .update = update};
    merging->result = (struct result){.update = update->bytes, .identification = header_field(update, 1)};
    merging->result.sources = grow(NULL, most + 1, sizeof merging->result.sources[0]);
    merging->result.changed = grow(NULL, update->name_count + 1, sizeof merging->result.changed[0]);
    merging->fates = calloc(cell->name_count + 1, sizeof merging->fates[0]);
    if (merging->fates == NULL)
        abort();
    merging->inserted = grow(NULL, update->name_count + 1, sizeof merging->inserted[0]);
    merging->chart = (struct reading){.bytes = cell->bytes, .comf = cell->comf, .fields = cell->fields, .result = &merging->result};
    memcpy(merging->chart.counted, cell->counted, sizeof cell->counted);
    merging->chart.names = grow(NULL, most + 1, sizeof merging->chart.names[0]);
    editing_open(&merging->editing, &merging->result);
}

static void merging_close(struct merging *merging)
{
    editing_close(&merging->editing);
    free(merging->result.sources);
    free(merging->result.changed);
    free(merging->result.fields);
    buffer_free(&merging->result.contents);
    free(merging->fates);
    free(merging->inserted);
    free(merging->chart.names);
}

/* ---- Apply */

static struct answer apply(struct reading *cell, struct reading *update, uint8_t *out, size_t out_length)
{
    struct merging merging;
    enum code code = follow_fault(cell, update);
    if (code != CODE_DONE)
        return (struct answer){.code = code, .file = 2, .record = 1, .offset = (uint32_t)reader_record(update->bytes, 0).end};
    merging_open(&merging, cell, update);
    struct answer answer = work_in_all(&merging);
    if (answer.code == CODE_DONE) {
        merge(&merging);
        answer = judge_topology(&merging.chart);
    }
    if (answer.code == CODE_DONE)
        answer = hold(&merging.chart, out, out_length);
    merging_close(&merging);
    return answer;
}

struct answer reader_apply(const uint8_t *cell, size_t cell_length, const uint8_t *update, size_t update_length, size_t work_length, uint8_t *out,
                           size_t out_length)
{
    struct reading base = {.bytes = cell, .length = cell_length};
    struct reading change = {.bytes = update, .length = update_length, .update = true};
    struct answer answer = read_files(&base, &change, work_length);
    if (answer.code == CODE_DONE)
        answer = apply(&base, &change, out, out_length);
    reading_close(&base);
    reading_close(&change);
    return answer;
}
