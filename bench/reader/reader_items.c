/* The records of a chart, wherever they stand: in the chart's file or, where an update has made the chart, in one of the two files or among those that it
   has changed. And the groups of subfields in a field. */
#include "reader_parts.h"

#include <string.h>

/* ---- records */

void load_record(struct reading *reading, const uint8_t *from, size_t start)
{
    struct record record = reader_record(from, start);
    for (size_t i = 0; i < record.entries; i++)
        reading->fields[i] = reader_field(from, &record, i);
    reading->field_count = record.entries;
    reading->from = from;
}

static void load_changed(struct reading *chart, const struct changed *changed)
{
    memcpy(chart->fields, chart->result->fields + changed->first, changed->count * sizeof chart->fields[0]);
    chart->field_count = changed->count;
    chart->from = chart->result->contents.bytes;
}

void load_item(struct reading *chart, size_t index)
{
    if (chart->result == NULL) {
        load_record(chart, chart->bytes, record_of(chart->names[index]));
        return;
    }
    const struct source *source = &chart->result->sources[index];
    if (source->file == OF_BOTH)
        load_changed(chart, &chart->result->changed[source->at]);
    else
        load_record(chart, source->file == OF_CELL ? chart->bytes : chart->result->update, source->at);
}

/* Field `index` of the record at `start`. */
static const uint8_t *field_of(const uint8_t *bytes, size_t start, size_t index)
{
    struct record record = reader_record(bytes, start);
    return bytes + reader_field(bytes, &record, index).start;
}

const uint8_t *object_of(const struct reading *chart, size_t index)
{
    enum { FOID = 2 };
    const struct result *result = chart->result;
    if (result == NULL)
        return field_of(chart->bytes, record_of(chart->names[index]), FOID);
    const struct source *source = &result->sources[index];
    if (source->file == OF_BOTH)
        return result->contents.bytes + result->fields[result->changed[source->at].first + FOID].start;
    return field_of(source->file == OF_CELL ? chart->bytes : result->update, source->at, FOID);
}

const uint8_t *header_field(const struct reading *reading, size_t index)
{
    return field_of(reading->bytes, reader_record(reading->bytes, 0).end, index);
}

/* ---- groups. One by one where they have a text: a 1F ends it only there, and may be any byte of a number. */

const uint8_t *skip_groups(const uint8_t *at, const int8_t *runs, size_t count)
{
    if (runs[1] == RUNS_END)
        return at + count * (size_t)runs[0];
    for (; count > 0; count--)
        for (const int8_t *run = runs; *run != RUNS_END; run++) {
            if (*run != RUN_TEXT) {
                at += *run;
                continue;
            }
            while (*at++ != UNIT_END)
                continue;
        }
    return at;
}

size_t count_groups(const uint8_t *at, const uint8_t *end, const int8_t *runs)
{
    size_t count = 0;
    if (runs[1] == RUNS_END)
        return (size_t)(end - at) / (size_t)runs[0];
    for (; at < end; count++)
        at = skip_groups(at, runs, 1);
    return count;
}
