/* The stages in document 01's order: cell 1, 2; update 1, 2; 3; cell 4, then 5 before 6 record by record, 7, 8; update 4, 5/6, 7. */
#include "reader_parts.h"

#include <stdlib.h>

enum { LONGEST_FILE = 5242880, WORK_A_RECORD = 16, LABELS = 65536 };

/* No record has more fields: of its 99,999 bytes 25 go to the leader and the directory's end, and 7 at least to each. */
enum { MOST_FIELDS = (99999 - 25) / 7 };

static const struct answer done = {0};

static struct answer refusal(const struct reading *reading, enum code code, size_t record, size_t offset)
{
    return (struct answer){
        .code = code, .file = reading->update ? 2 : 1, .record = (uint32_t)record, .offset = (uint32_t)offset};
}

/* Where record `index` begins; all before it are well framed. */
static size_t record_start(const struct reading *reading, size_t index)
{
    size_t start = 0;
    for (; index > 0; index--)
        start = reader_record(reading->bytes, start).end;
    return start;
}

static size_t record_index(const struct reading *reading, size_t start)
{
    size_t index = 0;
    for (size_t at = 0; at < start; index++)
        at = reader_record(reading->bytes, at).end;
    return index;
}

/* ---- the stages */

static struct answer frame(struct reading *reading)
{
    if (reading->length > LONGEST_FILE)
        return refusal(reading, CODE_LONG, 0, 0);
    struct framing framing = reader_frame(reading->bytes, reading->length);
    reading->records = framing.records;
    return framing.good ? done : refusal(reading, CODE_FRAME, framing.records, record_start(reading, framing.records));
}

static struct answer read_records(struct reading *reading)
{
    size_t names_from = reading->update ? 2 : 3, start = reader_record(reading->bytes, 0).end;
    for (size_t index = 1; index < reading->records; index++) {
        struct record record = reader_record(reading->bytes, start);
        size_t fault = layout_fault(reading, &record, index);
        if (fault != FINE)
            return refusal(reading, CODE_LAYOUT, index, fault);
        fault = value_fault(reading);
        if (fault != FINE)
            return refusal(reading, CODE_VALUE, index, fault);
        if (index >= names_from)
            note_record(reading, start);
        start = record.end;
    }
    return reading->records < names_from ? refusal(reading, CODE_LAYOUT, reading->records, reading->length) : done;
}

static void reading_open(struct reading *reading)
{
    reading->fields = grow(NULL, MOST_FIELDS, sizeof reading->fields[0]);
    reading->names = grow(NULL, reading->records, sizeof reading->names[0]);
    reading->met = calloc(LABELS, sizeof reading->met[0]);
    if (reading->met == NULL)
        abort();
}

void reading_close(struct reading *reading)
{
    free(reading->fields);
    free(reading->names);
    free(reading->met);
}

/* Codes 4 to 8 of one file that is well framed. */
static struct answer read_file(struct reading *reading)
{
    reading_open(reading);
    if (!describe(reading))
        return refusal(reading, CODE_DESCRIBED, 0, 0);
    struct answer answer = read_records(reading);
    if (answer.code != CODE_DONE)
        return answer;
    size_t twice = sort_names(reading);
    if (twice != FINE)
        return refusal(reading, CODE_TWICE, record_index(reading, twice), twice);
    if (!reading->update && !counts_agree(reading))
        return refusal(reading, CODE_COUNTS, 1, record_start(reading, 1));
    return done;
}

struct answer read_files(struct reading *cell, struct reading *update, size_t work_length)
{
    struct answer answer = frame(cell);
    if (answer.code == CODE_DONE && update != NULL)
        answer = frame(update);
    if (answer.code != CODE_DONE)
        return answer;
    size_t needed = WORK_A_RECORD * (cell->records + (update != NULL ? update->records : 0));
    if (work_length < needed)
        return (struct answer){.code = CODE_WORK, .number = (uint32_t)needed};
    answer = read_file(cell);
    if (answer.code == CODE_DONE && update != NULL)
        answer = read_file(update);
    return answer;
}

/* ---- the calls */

struct answer reader_read(const uint8_t *cell, size_t length, size_t work_length)
{
    struct reading reading = {.bytes = cell, .length = length};
    struct answer answer = read_files(&reading, NULL, work_length);
    reading_close(&reading);
    return answer;
}

struct answer reader_read_both(const uint8_t *cell, size_t cell_length, const uint8_t *update, size_t update_length, size_t work_length)
{
    struct reading base = {.bytes = cell, .length = cell_length};
    struct reading change = {.bytes = update, .length = update_length, .update = true};
    struct answer answer = read_files(&base, &change, work_length);
    reading_close(&base);
    reading_close(&change);
    return answer;
}
