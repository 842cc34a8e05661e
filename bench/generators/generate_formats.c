/* Format lists, good, broken and damaged, and descriptive fields to be cut. */
#include "generate.h"

#include <stdio.h>
#include <stdlib.h>
#include <string.h>

static void put_text(struct buffer *text, const char *string)
{
    buffer_put(text, string, strlen(string));
}

static void put_number(struct buffer *text, uint32_t number)
{
    char digits[12];
    snprintf(digits, sizeof digits, "%u", (unsigned)number);
    put_text(text, digits);
}

/* ---- good lists: the text and what it must be written out to grow side by side */

static void write_primitive(struct buffer *text, struct formats *written, struct random *random)
{
    static const uint32_t sizes[] = {1, 4, 8, 9, 10, 40, 64, 99, 100, 999};
    uint32_t letter = (uint32_t)"AIRBb"[random_below(random, 5)], size = 0;
    uint8_t byte = (uint8_t)letter;
    buffer_put(text, &byte, 1);
    if (letter == 'b') {
        size = 10 * random_between(random, 1, 9) + random_between(random, 1, 9);
        put_number(text, size);
    } else if (random_one_in(random, 2)) {
        size = sizes[random_below(random, sizeof sizes / sizeof sizes[0])];
        put_text(text, "(");
        put_number(text, size);
        put_text(text, ")");
    }
    written->primitive[written->count++] = letter + 256 * size;
}

static void write_list(struct buffer *text, struct formats *written, unsigned level, uint32_t most, struct random *random);

/* A count and what it stands before, in all at most `left` primitives. */
static void write_item(struct buffer *text, struct formats *written, unsigned level, uint32_t left, struct random *random)
{
    uint32_t count = random_one_in(random, 2) ? 1 : random_between(random, 1, left), from = written->count;
    if (count > 1 || random_one_in(random, 8))
        put_number(text, count);
    if (level < MOST_LEVELS && random_one_in(random, 3))
        write_list(text, written, level + 1, left / count, random);
    else
        write_primitive(text, written, random);
    uint32_t group = written->count - from;
    for (; count > 1; count--)
        for (uint32_t i = 0; i < group; i++, written->count++)
            written->primitive[written->count] = written->primitive[written->count - group];
}

/* A bracketed list of one to `most` primitives; often all of them. */
static void write_list(struct buffer *text, struct formats *written, unsigned level, uint32_t most, struct random *random)
{
    uint32_t end = written->count + most;
    bool full = random_one_in(random, 2);
    put_text(text, "(");
    write_item(text, written, level, most, random);
    while (written->count < end && (full || random_one_in(random, 2))) {
        put_text(text, ",");
        write_item(text, written, level, end - written->count, random);
    }
    put_text(text, ")");
}

static void make_good(struct formats_case *made, struct random *random)
{
    uint32_t most = random_one_in(random, 2) ? MOST_PRIMITIVES : random_between(random, 1, MOST_PRIMITIVES);
    made->known = made->accepted = true;
    write_list(&made->text, &made->written, 1, most, random);
}

/* ---- broken lists: one item that no list may have, among good ones */

static const struct broken {
    const char *kind;
    const char *item[12];
} broken[] = {
    {"formats: empty list", {"()", "2()", "(())", "(A,())", ""}},
    {"formats: count wrong", {"0A", "01A", "00A", "100A", "0(A)", "01(A)", "100(A)", "2", "2 A", "-1A", "2(2)", "1000b11"}},
    {"formats: size wrong", {"A()", "A(0)", "A(08)", "A(1000)", "A(8", "A8", "A( 8)", "B(4a)", "R(4)(4)", "A(1,2)", "b11(1)", "I(A)"}},
    {"formats: b wrong", {"b", "b1", "b01", "b10", "b111", "b(11)", "b1A", "bb1", "b 11", "2b", "b1,1", "B11"}},
    {"formats: no such letter", {"C", "X(4)", "a", "i", "S", "@", "b1b", "AA", "A*", "r(4)", "\xE1", "!"}},
    {"formats: commas", {",", ",,", ",A", "A,", "A,,A", "A;A", "A.A", "2,A", "A A", "(A,)", "(,A)", "A(8)A"}},
    {"formats: brackets", {"(", ")", "(A", "A)", "A))", ")(", "((A)", "(A))", "[A]", "(A]", "A()(", "{A}"}},
    {"formats: blanks", {" ", " A", "A ", "( A)", "2 (A)", "\tA", "A\n", "A(8 )", "b1 1", "(A, A)", "\x1f", "A\x1e"}},
    {"formats: too many levels", {"(((((A))))", "((((A))))", "2(2(2(2(A))))", "(A,(A,(A,(A,(A)))))", "(((((A)))))"}},
    {"formats: too many primitives", {"33A", "99A", "32A,A", "16(2A,b11)", "99(99(99(A)))", "4(9A)", "3(11b11)", "2(16A,A)", "17(A,A)"}},
};

enum { BROKEN = sizeof broken / sizeof broken[0] };

/* Whole texts whose fault lies outside the outermost bracket. */
static const char *const outside[] = {
    "", "A", "b11", "2(A)", "1(A)", "(A),", "(A)A", "(A) ", " (A)", "(A)(A)", "(A),(A)", "A,A", ")A(", "(A)\x1e",
};

static const char *const KIND_GOOD = "formats: good";
static const char *const KIND_OUTSIDE = "formats: outermost bracket";
static const char *const KIND_DAMAGED = "formats: damaged at random";
static const char *const KIND_RANDOM = "formats: random text";

/* A text of the table, any of those before its first empty place. */
static const char *choose_item(const struct broken *entry, struct random *random)
{
    uint32_t count = 0;
    while (count < sizeof entry->item / sizeof entry->item[0] && entry->item[count] != NULL)
        count++;
    return entry->item[random_below(random, count)];
}

/* The bad item first, last, between, or alone, and sometimes one level further in. */
static void make_broken(struct formats_case *made, const struct broken *entry, struct random *random)
{
    bool inner = random_one_in(random, 3);
    made->kind = entry->kind;
    made->known = true;
    put_text(&made->text, inner ? "(b11,2(" : "(");
    if (random_one_in(random, 2))
        put_text(&made->text, "b12,A,");
    put_text(&made->text, choose_item(entry, random));
    if (random_one_in(random, 2))
        put_text(&made->text, ",2A(8)");
    put_text(&made->text, inner ? "))" : ")");
}

static void make_outside(struct formats_case *made, struct random *random)
{
    made->kind = KIND_OUTSIDE;
    made->known = true;
    put_text(&made->text, outside[random_below(random, sizeof outside / sizeof outside[0])]);
}

static uint8_t likely_byte(struct random *random)
{
    static const char likely[] = "((()))),,,,AAIRBbbb0112345678932 \x1f";
    return random_one_in(random, 32) ? random_byte(random) : (uint8_t)likely[random_below(random, sizeof likely - 1)];
}

static void make_damaged(struct formats_case *made, struct random *random)
{
    make_good(made, random);
    made->kind = KIND_DAMAGED;
    made->known = false;
    for (uint32_t times = random_between(random, 1, 2); times > 0; times--) {
        size_t place = random_below(random, (uint32_t)made->text.length);
        switch (random_below(random, 3)) {
        case 0:
            made->text.bytes[place] = likely_byte(random);
            break;
        case 1:
            *buffer_open(&made->text, place, 1) = likely_byte(random);
            break;
        default:
            if (made->text.length > 1)
                buffer_remove(&made->text, place, 1);
        }
    }
}

static void make_random(struct formats_case *made, struct random *random)
{
    made->kind = KIND_RANDOM;
    for (uint32_t count = random_below(random, 9); count > 0; count--)
        *buffer_more(&made->text, 1) = likely_byte(random);
    if (random_one_in(random, 8))
        return;
    *buffer_open(&made->text, 0, 1) = '(';
    *buffer_more(&made->text, 1) = ')';
}

size_t formats_kinds(void)
{
    return BROKEN + 4;
}

const char *formats_kind(size_t index)
{
    const char *const others[] = {KIND_GOOD, KIND_DAMAGED, KIND_RANDOM, KIND_OUTSIDE};
    return index < 4 ? others[index] : broken[index - 4].kind;
}

struct formats_case formats_case_make(uint64_t seed)
{
    struct random random = {seed ^ UINT64_C(0xF0411A75)};
    struct formats_case made = {.kind = KIND_GOOD};
    size_t kind = seed / 4 % (BROKEN + 1);
    switch (seed % 4) {
    case 0:
        make_good(&made, &random);
        break;
    case 1:
        make_damaged(&made, &random);
        break;
    case 2:
        make_random(&made, &random);
        break;
    default:
        if (kind == BROKEN)
            make_outside(&made, &random);
        else
            make_broken(&made, &broken[kind], &random);
    }
    return made;
}

/* ---- descriptive fields */

enum { CONTROLS = 9, UNIT_END = 0x1F, FIELD_END = 0x1E };

static const char *const cut_names[] = {"cut: good", "cut: second 1F last", "cut: one 1F", "cut: no 1F", "cut: too short"};

size_t cut_kinds(void)
{
    return sizeof cut_names / sizeof cut_names[0];
}

const char *cut_kind(size_t index)
{
    return cut_names[index];
}

/* `count` bytes without 1F. */
static void put_part(struct buffer *field, uint32_t count, struct random *random)
{
    for (; count > 0; count--) {
        uint8_t byte = random_byte(random);
        *buffer_more(field, 1) = byte == UNIT_END ? '!' : byte;
    }
}

static void put_byte(struct buffer *field, uint8_t byte)
{
    *buffer_more(field, 1) = byte;
}

/* The nine bytes may hold anything, 1F too; so may what stands after the second 1F. The last byte isn't looked at. */
struct cut_case cut_case_make(uint64_t seed)
{
    struct random random = {seed ^ UINT64_C(0xC07F1E1D)};
    size_t kind = seed % (sizeof cut_names / sizeof cut_names[0]);
    struct cut_case made = {.kind = cut_names[kind], .accepted = kind == 0};
    uint32_t head = kind == 4 ? random_below(&random, CONTROLS + 1) : CONTROLS;
    for (; head > 0; head--)
        put_byte(&made.field, random_one_in(&random, 4) ? UNIT_END : random_byte(&random));
    if (kind == 4)
        return made;
    put_part(&made.field, random_below(&random, 20), &random);
    if (kind <= 2) {
        made.cut.name_end = made.field.length;
        put_byte(&made.field, UNIT_END);
        put_part(&made.field, random_below(&random, 40), &random);
    }
    if (kind <= 1) {
        made.cut.labels_end = made.field.length;
        put_byte(&made.field, UNIT_END);
    }
    if (kind == 0)
        for (uint32_t count = random_below(&random, 20); count > 0; count--)
            put_byte(&made.field, random_one_in(&random, 6) ? UNIT_END : random_byte(&random));
    if (kind != 1)
        put_byte(&made.field, random_one_in(&random, 4) ? random_byte(&random) : FIELD_END);
    return made;
}
