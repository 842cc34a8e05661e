/* Drafts: good files of framing, record by record, and random damage to them. */
#include "generate.h"

#include <stdlib.h>
#include <string.h>

enum { LEADER = 24, TAG = 4, FIELD_END = 0x1E, LONGEST_RECORD = 99999 };

/* ---- one good record */

void put_digits(uint8_t *at, unsigned count, size_t number)
{
    for (unsigned i = count; i-- > 0; number /= 10)
        at[i] = (uint8_t)('0' + number % 10);
}

static unsigned digits_of(size_t number)
{
    unsigned digits = 1;
    for (; number >= 10; number /= 10)
        digits++;
    return digits;
}

/* Mostly the fewest digits that do, often more, sometimes nine. */
static unsigned choose_digits(size_t largest, const struct style *style, struct random *random)
{
    unsigned fewest = digits_of(largest);
    if (fewest < style->least_digits)
        fewest = style->least_digits;
    if (style->plain || random_one_in(random, 2))
        return fewest;
    return random_one_in(random, 4) ? 9 : random_between(random, fewest, 9);
}

/* Bytes of leaders that document 01 doesn't judge. In record 0, 10 and 11 are not free. */
static void put_leader(uint8_t *leader, const struct record_plan *plan, bool first, const struct style *style, struct random *random)
{
    bool blank = style->plain || random_one_in(random, 3);
    for (size_t i = 0; i < LEADER; i++)
        leader[i] = blank ? ' ' : random_byte(random);
    put_digits(leader, 5, plan->length);
    leader[6] = first ? 'L' : 'D';
    if (first)
        memcpy(leader + 10, "09", 2);
    put_digits(leader + 12, 5, plan->base);
    leader[20] = (uint8_t)('0' + plan->length_digits);
    leader[21] = (uint8_t)('0' + plan->position_digits);
    memcpy(leader + 22, "04", 2);
}

static void put_tag(uint8_t *tag, const struct style *style, struct random *random)
{
    static const char known[][TAG + 1] = {"0001", "DSID", "DSSI", "DSPM", "VRID", "ATTV", "VRPT", "SG2D", "SG3D", "FRID", "FOID", "ATTF"};
    if (style->plain || !random_one_in(random, 3)) {
        memcpy(tag, known[random_below(random, sizeof known / sizeof known[0])], TAG);
        return;
    }
    static const uint8_t odd[] = {0x1E, 0x1F, '0', '9', ' ', 0, 0xFF, 'D', 'L'};
    bool any = random_one_in(random, 2);
    for (size_t i = 0; i < TAG; i++)
        tag[i] = any ? random_byte(random) : odd[random_below(random, sizeof odd)];
}

/* Content that a reader must not look at: any bytes, with 1E, 1F and digits more often than chance would have them. */
static void put_content(uint8_t *content, size_t length, struct random *random)
{
    static const uint8_t often[] = {0x1E, 0x1F, '0', '1'};
    for (size_t i = 0; i + 1 < length; i++) {
        uint64_t drawn = random_next(random);
        content[i] = drawn & 7 ? (uint8_t)(drawn >> 8) : often[drawn >> 3 & 3];
    }
    content[length - 1] = FIELD_END;
}

static struct record_plan *draft_plan(struct draft *draft)
{
    if (draft->count == draft->room) {
        draft->room = 2 * draft->room + 16;
        draft->records = grow(draft->records, draft->room, sizeof draft->records[0]);
    }
    return &draft->records[draft->count++];
}

void draft_record(struct draft *draft, const struct style *style, const uint32_t *lengths, size_t fields, struct random *random)
{
    bool first = draft->count == 0;
    size_t longest = 0, area = 0;
    for (size_t i = 0; i < fields; i++) {
        longest = lengths[i] > longest ? lengths[i] : longest;
        area += lengths[i];
    }
    struct record_plan *plan = draft_plan(draft);
    plan->start = draft->file.length;
    plan->entries = fields;
    plan->length_digits = choose_digits(longest, style, random);
    plan->position_digits = choose_digits(area - lengths[fields - 1], style, random);
    size_t entry = TAG + plan->length_digits + plan->position_digits;
    plan->base = LEADER + fields * entry + 1;
    plan->length = plan->base + area;

    uint8_t *record = buffer_more(&draft->file, plan->length);
    put_leader(record, plan, first, style, random);
    size_t position = 0;
    for (size_t i = 0; i < fields; i++) {
        uint8_t *at = record + LEADER + i * entry;
        put_tag(at, style, random);
        put_digits(at + TAG, plan->length_digits, lengths[i]);
        put_digits(at + TAG + plan->length_digits, plan->position_digits, position);
        put_content(record + plan->base + position, lengths[i], random);
        position += lengths[i];
    }
    record[plan->base - 1] = FIELD_END;
}

/* ---- whole drafts */

/* Often the shortest, and often 10: a number that ends in 0 is the one that a wrong digit can stand in for. */
static uint32_t choose_length(const struct style *style, struct random *random)
{
    if (random_one_in(random, 4))
        return 1;
    if (style->longest_field > 10 && random_one_in(random, 3))
        return 10;
    return random_between(random, 1, style->longest_field);
}

/* As many lengths as a record can hold with nine-digit sizes, so that every choice of digits fits five digits of record length. */
static size_t choose_lengths(uint32_t *lengths, size_t fields, const struct style *style, struct random *random)
{
    size_t room = LONGEST_RECORD - LEADER - 1, count = 0;
    while (count < fields) {
        uint32_t length = choose_length(style, random);
        size_t needed = TAG + 9 + 9 + length;
        if (needed > room)
            break;
        lengths[count++] = length;
        room -= needed;
    }
    return count;
}

void draft_write(struct draft *draft, const struct style *style, struct random *random)
{
    uint32_t *lengths = grow(NULL, style->most_fields, sizeof lengths[0]);
    for (uint32_t i = 0; i < style->records; i++) {
        size_t fields = random_between(random, style->least_fields, style->most_fields);
        size_t count = choose_lengths(lengths, fields, style, random);
        draft_record(draft, style, lengths, count, random);
    }
    free(lengths);
}

void draft_free(struct draft *draft)
{
    buffer_free(&draft->file);
    free(draft->records);
    *draft = (struct draft){0};
}

/* ---- random damage */

/* A place in the file: half of the time anywhere, else in some record's leader or directory, where most rules look. */
static size_t choose_place(const struct draft *draft, struct random *random)
{
    if (random_one_in(random, 2))
        return random_below(random, (uint32_t)draft->file.length);
    const struct record_plan *plan = &draft->records[random_below(random, (uint32_t)draft->count)];
    size_t place = plan->start + random_below(random, (uint32_t)plan->base);
    return place < draft->file.length ? place : draft->file.length - 1;
}

/* Copies, removes or inserts a run of a few bytes, as a bad disc or a careless editor would. */
static void damage_run(struct draft *draft, size_t place, struct random *random)
{
    struct buffer *file = &draft->file;
    size_t most = file->length - place < 64 ? file->length - place : 64;
    size_t count = random_between(random, 1, (uint32_t)most);
    uint8_t run[64];
    memcpy(run, file->bytes + place, count);
    if (random_one_in(random, 2))
        buffer_remove(file, place, count);
    else
        memcpy(buffer_open(file, place, count), run, count);
}

static void damage_once(struct draft *draft, struct random *random)
{
    struct buffer *file = &draft->file;
    if (file->length == 0)
        return;
    size_t place = choose_place(draft, random);
    switch (random_below(random, 8)) {
    case 0:
    case 1:
        file->bytes[place] ^= (uint8_t)(1u << random_below(random, 8));
        break;
    case 2:
        file->bytes[place] = random_byte(random);
        break;
    case 3:
        file->bytes[place] = (uint8_t)('0' + random_below(random, 10));
        break;
    case 4:
        *buffer_open(file, place, 1) = random_byte(random);
        break;
    case 5:
        buffer_remove(file, place, 1);
        break;
    case 6:
        file->length = place;
        break;
    default:
        damage_run(draft, place, random);
    }
}

void draft_damage(struct draft *draft, struct random *random)
{
    for (uint32_t times = random_between(random, 1, 3); times > 0; times--)
        damage_once(draft, random);
}
