/* Good files of about 5 MB: an ordinary one, and hostile ones that put as much of some kind of work into their bytes as the rules allow. */
#include "generate.h"

#include <stdlib.h>

enum { LEADER = 24, TAG = 4, LONGEST_RECORD = 99999, LARGEST_FILE = 5242880 };

/* Appends records of `fields` fields of `length` bytes each while one more fits into the largest file. */
static void fill(struct draft *draft, unsigned digits, size_t fields, uint32_t length, struct random *random)
{
    struct style style = {.least_digits = digits, .plain = true};
    uint32_t *lengths = grow(NULL, fields, sizeof lengths[0]);
    for (size_t i = 0; i < fields; i++)
        lengths[i] = length;
    do
        draft_record(draft, &style, lengths, fields, random);
    while (draft->file.length + draft->records[draft->count - 1].length <= LARGEST_FILE);
    free(lengths);
}

/* As a cell looks: a first record of some 2,000 bytes, then records of about 180 bytes in 3 to 7 fields. */
static void write_ordinary(struct draft *draft, struct random *random)
{
    enum { RECORDS = 28000, TAGS = 16 };
    struct style style = {.least_digits = 1, .plain = true};
    uint32_t lengths[TAGS];
    for (size_t i = 0; i < TAGS; i++)
        lengths[i] = random_between(random, 20, 160);
    draft_record(draft, &style, lengths, TAGS, random);
    for (size_t record = 1; record < RECORDS; record++) {
        size_t fields = random_between(random, 3, 7);
        lengths[0] = 3;
        for (size_t i = 1; i < fields; i++)
            lengths[i] = random_between(random, 9, 48);
        draft_record(draft, &style, lengths, fields, random);
    }
}

static void write_tiny(struct draft *draft, struct random *random)
{
    enum { RECORDS = 160000 };
    struct style style = {.least_digits = 1, .plain = true};
    uint32_t length = 1;
    for (size_t record = 0; record < RECORDS; record++)
        draft_record(draft, &style, &length, 1, random);
}

static void write_nine_digits(struct draft *draft, struct random *random)
{
    fill(draft, 9, 1, 1, random);
}

static void write_nine_digit_entries(struct draft *draft, struct random *random)
{
    fill(draft, 9, (LONGEST_RECORD - LEADER - 1) / (TAG + 9 + 9 + 1), 1, random);
}

static void write_longest_records(struct draft *draft, struct random *random)
{
    fill(draft, 1, 1, LONGEST_RECORD - LEADER - 1 - (TAG + 5 + 1), random);
}

static void write_entries(struct draft *draft, struct random *random)
{
    fill(draft, 5, 6000, 1, random);
}

/* One digit of length and four of position: no directory can have more entries. */
static void write_most_entries(struct draft *draft, struct random *random)
{
    fill(draft, 1, (LONGEST_RECORD - LEADER - 1) / (TAG + 1 + 4 + 1), 1, random);
}

static const struct large {
    const char *name;
    void (*write)(struct draft *draft, struct random *random);
} files[] = {
    {"ordinary: 28,000 records of about 180 bytes", write_ordinary},
    {"160,000 records of 32 bytes", write_tiny},
    {"nine-digit sizes, records of 48 bytes", write_nine_digits},
    {"nine-digit sizes, 4,346 entries a record", write_nine_digit_entries},
    {"records of 99,999 bytes in one field", write_longest_records},
    {"6,000 entries a directory", write_entries},
    {"9,997 entries a directory", write_most_entries},
};

size_t large_files(void)
{
    return sizeof files / sizeof files[0];
}

const char *large_name(size_t index)
{
    return files[index].name;
}

struct frame_case large_make(size_t index)
{
    struct random random = {index + 1};
    struct draft draft = {0};
    files[index].write(&draft, &random);
    struct frame_case made = {.kind = files[index].name, .file = draft.file, .known = true, .verdict = {true, draft.count}};
    free(draft.records);
    return made;
}
