/* The descriptive fields of record 0: the format list written out, and the cut into name, labels and formats.

   Readings taken where document 01 is short:
   - a size, as in A(8), has one to three digits without a leading zero and stands after A, I, R or B alone; b takes exactly two digits,
     each 1 to 9;
   - more than 32 primitives refuse the list wherever they come from, so nothing depends on whether a later fault would refuse it too. */
#include "reader.h"

#include <string.h>

enum { MOST_LEVELS = 4 }; /* of brackets, one within the other */

struct cursor {
    const uint8_t *at, *end;
};

static int peek(const struct cursor *cursor)
{
    return cursor->at < cursor->end ? *cursor->at : -1;
}

static bool take(struct cursor *cursor, int byte)
{
    if (peek(cursor) != byte)
        return false;
    cursor->at++;
    return true;
}

/* Takes a digit of at least `least` and returns it, or takes nothing and returns -1. */
static int take_digit(struct cursor *cursor, int least)
{
    int byte = peek(cursor);
    if (byte < '0' + least || byte > '9')
        return -1;
    cursor->at++;
    return byte - '0';
}

/* A number of at most `most` digits without leading zero; 0 where none stands here. */
static uint32_t take_number(struct cursor *cursor, unsigned most)
{
    int digit = take_digit(cursor, 1);
    uint32_t number = 0;
    for (unsigned taken = 1; digit >= 0; taken++) {
        number = number * 10 + (uint32_t)digit;
        digit = taken < most ? take_digit(cursor, 0) : -1;
    }
    return number;
}

static bool append(struct formats *written, uint32_t letter, uint32_t size)
{
    if (written->count == MOST_PRIMITIVES)
        return false;
    written->primitive[written->count++] = letter + 256 * size;
    return true;
}

static bool take_primitive(struct cursor *cursor, struct formats *written)
{
    if (take(cursor, 'b')) {
        int kind = take_digit(cursor, 1);
        int width = take_digit(cursor, 1);
        return kind > 0 && width > 0 && append(written, 'b', (uint32_t)(10 * kind + width));
    }
    int letter = peek(cursor);
    if (letter != 'A' && letter != 'I' && letter != 'R' && letter != 'B')
        return false;
    cursor->at++;
    uint32_t size = 0;
    if (take(cursor, '(')) {
        size = take_number(cursor, 3);
        if (size == 0 || !take(cursor, ')'))
            return false;
    }
    return append(written, (uint32_t)letter, size);
}

/* Writes what stands from `from` on out until it is there `count` times. */
static bool repeat(struct formats *written, uint32_t from, uint32_t count)
{
    uint32_t group = written->count - from;
    if (group * count > MOST_PRIMITIVES - from)
        return false;
    for (; count > 1; count--) {
        memcpy(written->primitive + written->count, written->primitive + from, group * sizeof written->primitive[0]);
        written->count += group;
    }
    return true;
}

static bool take_list(struct cursor *cursor, unsigned level, struct formats *written);

static bool take_item(struct cursor *cursor, unsigned level, struct formats *written)
{
    uint32_t count = take_number(cursor, 2);
    uint32_t from = written->count;
    bool taken = peek(cursor) == '(' ? take_list(cursor, level + 1, written) : take_primitive(cursor, written);
    return taken && repeat(written, from, count > 0 ? count : 1);
}

static bool take_list(struct cursor *cursor, unsigned level, struct formats *written)
{
    if (level > MOST_LEVELS || !take(cursor, '('))
        return false;
    do {
        if (!take_item(cursor, level, written))
            return false;
    } while (take(cursor, ','));
    return take(cursor, ')');
}

bool reader_formats(const uint8_t *text, size_t length, struct formats *written)
{
    struct cursor cursor = {text, text + length};
    written->count = 0;
    return take_list(&cursor, 1, written) && cursor.at == cursor.end;
}

bool reader_cut(const uint8_t *field, size_t length, struct cut *cut)
{
    enum { CONTROLS = 9, UNIT_END = 0x1F };
    if (length <= CONTROLS)
        return false;
    const uint8_t *last = field + length - 1;
    const uint8_t *name_end = memchr(field + CONTROLS, UNIT_END, (size_t)(last - (field + CONTROLS)));
    if (name_end == NULL)
        return false;
    const uint8_t *labels_end = memchr(name_end + 1, UNIT_END, (size_t)(last - (name_end + 1)));
    if (labels_end == NULL)
        return false;
    cut->name_end = (size_t)(name_end - field);
    cut->labels_end = (size_t)(labels_end - field);
    return true;
}
