/* Each rule of "Framing" broken in several ways. Every way here breaks its rule for certain, in the record it returns, and leaves all
   records before that one good: what might come out legal by chance belongs to random damage. */
#include "generate.h"

#include <string.h>

enum { LEADER = 24, TAG = 4, FIELD_END = 0x1E };

/* ---- tools */

static uint8_t *record_at(struct draft *draft, size_t index)
{
    return draft->file.bytes + draft->records[index].start;
}

static size_t entry_size(const struct record_plan *plan)
{
    return TAG + plan->length_digits + plan->position_digits;
}

static uint8_t *length_at(struct draft *draft, size_t index, size_t entry)
{
    const struct record_plan *plan = &draft->records[index];
    return record_at(draft, index) + LEADER + entry * entry_size(plan) + TAG;
}

static uint8_t *position_at(struct draft *draft, size_t index, size_t entry)
{
    return length_at(draft, index, entry) + draft->records[index].length_digits;
}

static size_t number_at(const uint8_t *at, unsigned count)
{
    size_t number = 0;
    for (unsigned i = 0; i < count; i++)
        number = number * 10 + (size_t)(at[i] - '0');
    return number;
}

static uint32_t any_entry(const struct draft *draft, size_t index, struct random *random)
{
    return random_below(random, (uint32_t)draft->records[index].entries);
}

/* A byte that is none of `least` to `most`: the neighbours of that range, what a lax reader of numbers would skip, or any other. */
static uint8_t byte_outside(uint8_t least, uint8_t most, struct random *random)
{
    const uint8_t likely[] = {(uint8_t)(least - 1), (uint8_t)(most + 1), ' ', '+', '-', '.', 0, 0xFF, 'A', 0x1E};
    for (;;) {
        uint8_t byte = random_one_in(random, 4) ? random_byte(random) : likely[random_below(random, sizeof likely)];
        if (byte < least || byte > most)
            return byte;
    }
}

/* Writes a number with a byte that is no digit but keeps its value for a reader who only takes 30 hex off: "0:" for 10 or "1/" for 9.
   The bytes next to the digits come first, since they are the likeliest to slip through. False where no two digits allow it. */
static bool disguise_digit(uint8_t *at, unsigned count, bool up)
{
    uint8_t extreme = up ? '0' : '9';
    unsigned chosen = count;
    for (unsigned i = 0; i + 1 < count; i++)
        if (at[i] != extreme && (chosen == count || at[i + 1] == extreme))
            chosen = i;
    if (chosen == count)
        return false;
    at[chosen] = (uint8_t)(at[chosen] + (up ? -1 : 1));
    at[chosen + 1] = (uint8_t)(at[chosen + 1] + (up ? 10 : -10));
    return true;
}

/* Makes a number none: any byte that is no digit, a blank or a sign for a leading zero, or a digit in disguise. */
static void spoil_number(uint8_t *at, unsigned count, struct random *random)
{
    uint32_t way = random_below(random, 4);
    if (way == 0 && at[0] == '0')
        at[0] = random_one_in(random, 2) ? ' ' : '+';
    else if (way >= 2 || !disguise_digit(at, count, random_one_in(random, 2)))
        at[random_below(random, count)] = byte_outside('0', '9', random);
}

/* Opens a gap in a record, and has its leader say the length that it has then. */
static uint8_t *open_in_record(struct draft *draft, size_t index, size_t offset, size_t count)
{
    struct record_plan *plan = &draft->records[index];
    buffer_open(&draft->file, plan->start + offset, count);
    plan->length += count;
    put_digits(record_at(draft, index), 5, plan->length);
    return record_at(draft, index) + offset;
}

static void set_base(struct draft *draft, size_t index, size_t base)
{
    draft->records[index].base = base;
    put_digits(record_at(draft, index) + 12, 5, base);
}

/* ---- the file as a whole */

static size_t break_empty(struct draft *draft, struct random *random, size_t index)
{
    (void)random;
    (void)index;
    draft->file.length = 0;
    return 0;
}

/* Fewer than 32 bytes can't be a record, whatever they are. */
static size_t break_trailing(struct draft *draft, struct random *random, size_t index)
{
    size_t count = random_between(random, 1, 31);
    uint8_t tail[31];
    uint32_t way = random_below(random, 4);
    static const uint8_t fill[] = {0, ' ', '\n'};
    for (size_t i = 0; i < count; i++)
        tail[i] = way == 3 ? record_at(draft, index)[i] : fill[way];
    buffer_put(&draft->file, tail, count);
    return draft->count;
}

static size_t break_cut(struct draft *draft, struct random *random, size_t index)
{
    const struct record_plan *plan = &draft->records[index];
    size_t most = plan->length - 1;
    const size_t kept[] = {1, LEADER - 1, LEADER, plan->base - 1, plan->base, most};
    size_t keep = random_one_in(random, 2) ? kept[random_below(random, 6)] : random_between(random, 1, (uint32_t)most);
    draft->file.length = plan->start + keep;
    return index;
}

/* ---- the leader */

static size_t break_length_digit(struct draft *draft, struct random *random, size_t index)
{
    spoil_number(record_at(draft, index), 5, random);
    return index;
}

static size_t break_length(struct draft *draft, struct random *random, size_t index)
{
    const struct record_plan *plan = &draft->records[index];
    size_t next = index + 1 < draft->count ? draft->records[index + 1].length : 7;
    const size_t wrong[] = {0, plan->base - 1, plan->base, plan->length - 1, plan->length + 1, plan->length + next, 99999};
    put_digits(record_at(draft, index), 5, wrong[random_below(random, sizeof wrong / sizeof wrong[0])]);
    return index;
}

static size_t break_identifier(struct draft *draft, struct random *random, size_t index)
{
    uint8_t right = index == 0 ? 'L' : 'D', other = index == 0 ? 'D' : 'L';
    uint8_t *at = record_at(draft, index) + 6;
    *at = random_one_in(random, 2) ? other : byte_outside(right, right, random);
    return index;
}

static size_t break_level(struct draft *draft, struct random *random, size_t index)
{
    static const char wrong[][3] = {"  ", "90", "08", "19", "9 ", " 9", "00"};
    uint8_t *at = record_at(draft, index) + 10;
    if (random_one_in(random, 2))
        memcpy(at, wrong[random_below(random, sizeof wrong / sizeof wrong[0])], 2);
    else if (random_one_in(random, 2))
        at[0] = byte_outside('0', '0', random);
    else
        at[1] = byte_outside('9', '9', random);
    return index;
}

static size_t break_base_digit(struct draft *draft, struct random *random, size_t index)
{
    spoil_number(record_at(draft, index) + 12, 5, random);
    return index;
}

static size_t break_base(struct draft *draft, struct random *random, size_t index)
{
    const struct record_plan *plan = &draft->records[index];
    size_t entry = entry_size(plan);
    /* One entry more or less keeps the division whole; then the 1E or the fields betray it. */
    const size_t wrong[] = {0, 1, LEADER, plan->base - 1, plan->base + 1, plan->base - entry, plan->base + entry, plan->length, 99999};
    set_base(draft, index, wrong[random_below(random, sizeof wrong / sizeof wrong[0])]);
    return index;
}

/* Numbers of ten digits, that is nine with a zero before them, and ":" for the size, which is "0" plus ten: only the size is wrong.
   `offset` is where the number stands in an entry. */
static void widen_numbers(struct draft *draft, size_t index, size_t offset, size_t size_byte)
{
    struct record_plan *plan = &draft->records[index];
    size_t size = entry_size(plan);
    for (size_t entry = 0; entry < plan->entries; entry++)
        *open_in_record(draft, index, LEADER + entry * (size + 1) + offset, 1) = '0';
    set_base(draft, index, plan->base + plan->entries);
    record_at(draft, index)[size_byte] = ':';
}

static size_t break_length_size(struct draft *draft, struct random *random, size_t index)
{
    if (draft->records[index].length_digits == 9 && random_one_in(random, 2))
        widen_numbers(draft, index, TAG, 20);
    else
        record_at(draft, index)[20] = byte_outside('1', '9', random);
    return index;
}

/* The only position of a record with one field is 0; a reader that takes size 0 would read just that from no digits at all. */
static void remove_position(struct draft *draft, size_t index)
{
    struct record_plan *plan = &draft->records[index];
    buffer_remove(&draft->file, plan->start + plan->base - 1 - plan->position_digits, plan->position_digits);
    plan->length -= plan->position_digits;
    put_digits(record_at(draft, index), 5, plan->length);
    set_base(draft, index, plan->base - plan->position_digits);
    record_at(draft, index)[21] = '0';
}

static size_t break_position_size(struct draft *draft, struct random *random, size_t index)
{
    const struct record_plan *plan = &draft->records[index];
    if (plan->entries == 1 && random_one_in(random, 2))
        remove_position(draft, index);
    else if (plan->position_digits == 9 && random_one_in(random, 2))
        widen_numbers(draft, index, TAG + plan->length_digits, 21);
    else
        record_at(draft, index)[21] = byte_outside('1', '9', random);
    return index;
}

static size_t break_reserved(struct draft *draft, struct random *random, size_t index)
{
    record_at(draft, index)[22] = byte_outside('0', '0', random);
    return index;
}

static size_t break_tag_size(struct draft *draft, struct random *random, size_t index)
{
    uint8_t *at = record_at(draft, index) + 23;
    *at = random_one_in(random, 2) ? (uint8_t)('3' + 2 * random_below(random, 2)) : byte_outside('4', '4', random);
    return index;
}

/* ---- the directory */

static size_t break_directory_end(struct draft *draft, struct random *random, size_t index)
{
    record_at(draft, index)[draft->records[index].base - 1] = byte_outside(FIELD_END, FIELD_END, random);
    return index;
}

/* Without entries; with the fields' bytes still there, or with nothing after the directory. */
static size_t break_no_entry(struct draft *draft, struct random *random, size_t index)
{
    struct record_plan *plan = &draft->records[index];
    size_t entries = plan->base - 1 - LEADER;
    buffer_remove(&draft->file, plan->start + LEADER, entries);
    plan->length -= entries;
    set_base(draft, index, LEADER + 1);
    if (random_one_in(random, 2)) {
        buffer_remove(&draft->file, plan->start + plan->base, plan->length - plan->base);
        plan->length = plan->base;
    }
    put_digits(record_at(draft, index), 5, plan->length);
    return index;
}

static size_t break_part_entry(struct draft *draft, struct random *random, size_t index)
{
    struct record_plan *plan = &draft->records[index];
    size_t count = random_between(random, 1, (uint32_t)entry_size(plan) - 1), end = plan->base - 1;
    memset(open_in_record(draft, index, end, count), random_one_in(random, 2) ? '0' : FIELD_END, count);
    set_base(draft, index, plan->base + count);
    return index;
}

static size_t break_entry_length_digit(struct draft *draft, struct random *random, size_t index)
{
    uint8_t *at = length_at(draft, index, any_entry(draft, index, random));
    spoil_number(at, draft->records[index].length_digits, random);
    return index;
}

static size_t break_entry_position_digit(struct draft *draft, struct random *random, size_t index)
{
    uint8_t *at = position_at(draft, index, any_entry(draft, index, random));
    spoil_number(at, draft->records[index].position_digits, random);
    return index;
}

/* All positions one too high, or the first alone. The style of this rule has digits to spare. */
static size_t break_first_position(struct draft *draft, struct random *random, size_t index)
{
    const struct record_plan *plan = &draft->records[index];
    size_t shift = random_one_in(random, 2) ? 1 : plan->base;
    size_t shifted = random_one_in(random, 2) ? plan->entries : 1;
    for (size_t entry = 0; entry < shifted; entry++) {
        uint8_t *at = position_at(draft, index, entry);
        put_digits(at, plan->position_digits, number_at(at, plan->position_digits) + shift);
    }
    return index;
}

static size_t break_position(struct draft *draft, struct random *random, size_t index)
{
    const struct record_plan *plan = &draft->records[index];
    uint8_t *at = position_at(draft, index, random_between(random, 1, (uint32_t)plan->entries - 1));
    size_t right = number_at(at, plan->position_digits);
    const size_t wrong[] = {right - 1, right + 1, 0, plan->base + right, right + plan->length};
    put_digits(at, plan->position_digits, wrong[random_below(random, sizeof wrong / sizeof wrong[0])]);
    return index;
}

/* A byte between two fields that belongs to neither; all else agrees with it. */
static size_t break_gap(struct draft *draft, struct random *random, size_t index)
{
    const struct record_plan *plan = &draft->records[index];
    size_t after = random_between(random, 1, (uint32_t)plan->entries - 1);
    size_t position = number_at(position_at(draft, index, after), plan->position_digits);
    *open_in_record(draft, index, plan->base + position, 1) = random_one_in(random, 2) ? FIELD_END : random_byte(random);
    for (size_t entry = after; entry < plan->entries; entry++) {
        uint8_t *at = position_at(draft, index, entry);
        put_digits(at, plan->position_digits, number_at(at, plan->position_digits) + 1);
    }
    return index;
}

static size_t break_order(struct draft *draft, struct random *random, size_t index)
{
    const struct record_plan *plan = &draft->records[index];
    size_t size = entry_size(plan), one = random_below(random, (uint32_t)plan->entries - 1);
    uint8_t *left = record_at(draft, index) + LEADER + one * size;
    uint8_t *right = left + size * random_between(random, 1, (uint32_t)(plan->entries - 1 - one));
    for (size_t i = 0; i < size; i++) {
        uint8_t byte = left[i];
        left[i] = right[i];
        right[i] = byte;
    }
    return index;
}

/* An entry of length 0 in its right place: the byte before its end is the 1E of the field before, or of the directory. */
static size_t break_length_zero(struct draft *draft, struct random *random, size_t index)
{
    struct record_plan *plan = &draft->records[index];
    size_t place = random_below(random, (uint32_t)plan->entries + 1), size = entry_size(plan), position;
    if (place < plan->entries)
        position = number_at(position_at(draft, index, place), plan->position_digits);
    else
        position = plan->length - plan->base;
    uint8_t *entry = open_in_record(draft, index, LEADER + place * size, size);
    memcpy(entry, "ATTF", TAG);
    put_digits(entry + TAG, plan->length_digits, 0);
    put_digits(entry + TAG + plan->length_digits, plan->position_digits, position);
    set_base(draft, index, plan->base + size);
    return index;
}

/* A length that is right only modulo something: what a reader that wraps or cuts numbers would take. */
static size_t break_modulo(struct draft *draft, struct random *random, size_t index)
{
    static const size_t more[] = {256, 65536, 100000, 131072, 1000000, 16777216, 268435456, 900000000};
    const struct record_plan *plan = &draft->records[index];
    uint32_t entry = any_entry(draft, index, random);
    bool length = random_one_in(random, 2);
    uint8_t *at = length ? length_at(draft, index, entry) : position_at(draft, index, entry);
    unsigned digits = length ? plan->length_digits : plan->position_digits;
    put_digits(at, digits, number_at(at, digits) + more[random_below(random, sizeof more / sizeof more[0])]);
    return index;
}

/* ---- the fields */

static size_t break_last_length(struct draft *draft, struct random *random, size_t index)
{
    const struct record_plan *plan = &draft->records[index];
    uint8_t *at = length_at(draft, index, plan->entries - 1);
    size_t right = number_at(at, plan->length_digits);
    const size_t wrong[] = {right - 1, right + 1, right + 32, right + plan->length};
    put_digits(at, plan->length_digits, wrong[random_below(random, sizeof wrong / sizeof wrong[0])]);
    return index;
}

static size_t break_spare(struct draft *draft, struct random *random, size_t index)
{
    size_t count = random_between(random, 1, 40);
    memset(open_in_record(draft, index, draft->records[index].length, count), random_one_in(random, 2) ? FIELD_END : ' ', count);
    return index;
}

static size_t break_field_end(struct draft *draft, struct random *random, size_t index)
{
    const struct record_plan *plan = &draft->records[index];
    uint32_t entry = random_one_in(random, 2) ? (uint32_t)plan->entries - 1 : any_entry(draft, index, random);
    size_t length = number_at(length_at(draft, index, entry), plan->length_digits);
    size_t position = number_at(position_at(draft, index, entry), plan->position_digits);
    uint8_t *end = record_at(draft, index) + plan->base + position + length;
    end[-1] = random_one_in(random, 2) ? 0x1F : byte_outside(FIELD_END, FIELD_END, random);
    return index;
}

/* ---- the table of rules */

enum { FIRST_ONLY = 1, TWO_FIELDS = 2, WIDE = 4 };

static const struct rule {
    const char *name;
    size_t (*apply)(struct draft *draft, struct random *random, size_t index);
    unsigned needs;
} rules[] = {
    {"no record", break_empty, 0},
    {"bytes after the last record", break_trailing, 0},
    {"record cut", break_cut, 0},
    {"record length: no digit", break_length_digit, 0},
    {"record length: wrong", break_length, 0},
    {"L or D wrong", break_identifier, 0},
    {"09 missing", break_level, FIRST_ONLY},
    {"base address: no digit", break_base_digit, 0},
    {"base address: wrong", break_base, 0},
    {"size of length not 1-9", break_length_size, 0},
    {"size of position not 1-9", break_position_size, 0},
    {"byte 22 not 0", break_reserved, 0},
    {"byte 23 not 4", break_tag_size, 0},
    {"directory not closed by 1E", break_directory_end, 0},
    {"no entry", break_no_entry, 0},
    {"part of an entry", break_part_entry, 0},
    {"field length: no digit", break_entry_length_digit, 0},
    {"field position: no digit", break_entry_position_digit, 0},
    {"first position not 0", break_first_position, WIDE},
    {"position wrong", break_position, TWO_FIELDS | WIDE},
    {"gap between fields", break_gap, TWO_FIELDS | WIDE},
    {"entries out of order", break_order, TWO_FIELDS},
    {"field length 0", break_length_zero, WIDE},
    {"right modulo something", break_modulo, WIDE},
    {"last length wrong", break_last_length, WIDE},
    {"fields don't fill the record", break_spare, 0},
    {"field not closed by 1E", break_field_end, 0},
};

size_t break_rules(void)
{
    return sizeof rules / sizeof rules[0];
}

const char *break_name(size_t rule)
{
    return rules[rule].name;
}

struct style break_style(size_t rule, struct random *random)
{
    unsigned needs = rules[rule].needs;
    bool two_fields = needs & TWO_FIELDS, one_field = !two_fields && random_one_in(random, 3);
    return (struct style){
        .records = random_between(random, 1, 6),
        .least_fields = two_fields ? 2 : 1,
        .most_fields = one_field ? 1 : 6,
        .longest_field = 30,
        .least_digits = needs & WIDE || random_one_in(random, 4) ? 9 : 1,
        .plain = random_one_in(random, 2),
    };
}

size_t break_apply(size_t rule, struct draft *draft, struct random *random)
{
    bool first = rules[rule].needs & FIRST_ONLY;
    return rules[rule].apply(draft, random, first ? 0 : random_below(random, (uint32_t)draft->count));
}
