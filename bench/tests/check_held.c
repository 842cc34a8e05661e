/* The held form, rule by rule: how its records are written, in which order they stand, and that each says what a record of the cell says. Nothing is
   written here, and only framing is shared with the reader. */
#include "check_held.h"

#include "../generators/generate_admit.h"
#include "../reader/reader.h"

#include <stdlib.h>
#include <string.h>

enum { UNIT_END = 0x1F, FIRST_ITEM = 3, EDTN = 20 };

/* ---- a file's records, with what sets them in order */

struct keyed {
    uint64_t key; /* class and RCID in held order; of records 0 to 2 the index */
    struct record record;
};

struct file {
    const uint8_t *bytes;
    struct keyed *records;
    size_t count;
};

static uint64_t key_of(const uint8_t *bytes, const struct record *record)
{
    const uint8_t *identifier = bytes + reader_field(bytes, record, 1).start;
    uint64_t rank = identifier[0] == 100 ? 4 : (identifier[0] - UINT64_C(100)) / 10;
    return rank << 32 | get_number(identifier + 1, 4);
}

static struct file file_open(const uint8_t *bytes, size_t count)
{
    struct file file = {bytes, grow(NULL, count, sizeof file.records[0]), count};
    for (size_t i = 0, start = 0; i < count; i++) {
        struct record record = reader_record(bytes, start);
        file.records[i] = (struct keyed){i < FIRST_ITEM ? i : key_of(bytes, &record), record};
        start = record.end;
    }
    return file;
}

static int by_key(const void *left, const void *right)
{
    uint64_t one = ((const struct keyed *)left)->key, other = ((const struct keyed *)right)->key;
    return (one > other) - (one < other);
}

/* ---- how a record is written */

static unsigned digits_of(size_t number)
{
    return number < 10 ? 1 : 1 + digits_of(number / 10);
}

/* Document 01's bench sheet, 1 and 2: a connected node's leader, and an edge's that has no coordinates. VRID has 9 bytes with its 1E, one pair too. */
static bool as_on_bench_sheet(const uint8_t *held, const struct record *record)
{
    if (record->entries != 3 || reader_field(held, record, 1).length != 9)
        return true;
    size_t last = reader_field(held, record, 2).length;
    const char *leader = last == 9 ? "00067 D     00046   1204" : last == 19 ? "00080 D     00049   2204" : NULL;
    return leader == NULL || memcmp(held + record->start, leader, strlen(leader)) == 0;
}

static const char *form_fault(const uint8_t *held, const struct record *record, size_t place)
{
    const uint8_t *leader = held + record->start;
    struct field last = {0};
    size_t longest = 0;
    for (size_t i = 0; i < record->entries; i++) {
        last = reader_field(held, record, i);
        longest = last.length > longest ? last.length : longest;
    }
    if (memcmp(leader + 5, " D     ", 7) != 0 || memcmp(leader + 17, "   ", 3) != 0)
        return "the free bytes of a leader";
    if (record->length_digits != digits_of(longest) || record->position_digits != digits_of(last.start - record->fields))
        return "the digit sizes of a record";
    if (!as_on_bench_sheet(held, record))
        return "a leader of the bench sheet";
    return get_number(held + record->fields, 2) == place ? NULL : "the running number of a record";
}

/* ---- what a record says */

/* From field `from` on, each field of the held record is all that the cell's record has of its tag, joined. */
static bool says_same(const uint8_t *cell, const struct record *source, const uint8_t *held, const struct record *record, size_t from)
{
    size_t at = from;
    for (size_t i = from; i < record->entries; i++) {
        struct field whole = reader_field(held, record, i);
        size_t done = 0, length = whole.length - 1;
        for (; at < source->entries && reader_field(cell, source, at).tag == whole.tag; at++) {
            struct field part = reader_field(cell, source, at);
            if (part.length - 1 > length - done || memcmp(held + whole.start + done, cell + part.start, part.length - 1) != 0)
                return false;
            done += part.length - 1;
        }
        if (done != length)
            return false;
    }
    return at == source->entries;
}

/* The text of a number in the cell and in the held form; steps behind both. */
static bool same_number(const uint8_t **said, const uint8_t **held)
{
    char *said_end, *held_end;
    unsigned long number = strtoul((const char *)*said, &said_end, 10);
    bool shortest = **held != '0' || (*held)[1] == UNIT_END;
    bool same = strtoul((const char *)*held, &held_end, 10) == number && *held_end == UNIT_END;
    *said = (const uint8_t *)said_end + 1;
    *held = (const uint8_t *)held_end + 1;
    return shortest && same;
}

/* DSID: but for EDTN and UPDN as it stood. */
static bool identifies_same(const uint8_t *said, const struct field *said_field, const uint8_t *held, const struct field *held_field)
{
    const uint8_t *said_end = said + said_field->start + said_field->length, *held_end = held + held_field->start + held_field->length;
    said += said_field->start;
    held += held_field->start;
    if (memcmp(said, held, EDTN) != 0)
        return false;
    said += EDTN;
    held += EDTN;
    if (!same_number(&said, &held) || !same_number(&said, &held))
        return false;
    return said_end - said == held_end - held && memcmp(said, held, (size_t)(said_end - said)) == 0;
}

static bool header_same(const uint8_t *cell, const struct record *source, const uint8_t *held, const struct record *record)
{
    struct field said = reader_field(cell, source, 1), kept = reader_field(held, record, 1);
    return record->entries == 3 && kept.tag == said.tag && identifies_same(cell, &said, held, &kept) && says_same(cell, source, held, record, 2);
}

/* ---- the whole. No record is longer than it was in the cell: see sizes_of in reader_held.c. */

static const char *record_fault(const struct file *cell, const struct file *held, size_t place)
{
    const struct keyed *source = &cell->records[place], *kept = &held->records[place];
    const char *fault = form_fault(held->bytes, &kept->record, place);
    if (fault != NULL)
        return fault;
    if (kept->key != source->key)
        return "the order of records";
    bool same = place == 1 ? header_same(cell->bytes, &source->record, held->bytes, &kept->record)
                           : says_same(cell->bytes, &source->record, held->bytes, &kept->record, 1);
    if (!same)
        return "what a record says";
    return kept->record.end - kept->record.start > source->record.end - source->record.start ? "a record that has grown" : NULL;
}

const char *held_fault(const uint8_t *cell, size_t cell_length, const uint8_t *held, size_t held_length)
{
    struct framing cell_framing = reader_frame(cell, cell_length), held_framing = reader_frame(held, held_length);
    const char *fault = NULL;
    if (!held_framing.good || held_framing.records != cell_framing.records)
        return "its framing";
    if (held_length < first_of_held_length || memcmp(held, first_of_held, first_of_held_length) != 0)
        return "its record 0";
    struct file said = file_open(cell, cell_framing.records), kept = file_open(held, held_framing.records);
    qsort(said.records, said.count, sizeof said.records[0], by_key);
    for (size_t place = 1; place < kept.count && fault == NULL; place++)
        fault = record_fault(&said, &kept, place);
    free(said.records);
    free(kept.records);
    return fault;
}
