#include "input.h"

#include <string.h>

enum { CALL_AT = 0, WORK_AT = 1, OUT_AT = 2, ANSWER_AT = 3, CLASS_AT = 4, ID_AT = 8, CELL_AT = 12, STRETCHES_AT = 16, HEADER = 17, STRETCH = 16 };

const char *call_name(enum call call)
{
    static const char *const names[CALLS] = {"Judge", "Admit", "Apply", "Show"};
    return names[call];
}

enum call call_of(const struct input *input)
{
    return (enum call)(input->call % CALLS);
}

bool has_update(const struct input *input)
{
    return call_of(input) == APPLY || call_of(input) == SHOW;
}

/* ---- the string */

static uint32_t number_at(const uint8_t *at)
{
    return (uint32_t)at[0] | (uint32_t)at[1] << 8 | (uint32_t)at[2] << 16 | (uint32_t)at[3] << 24;
}

static void set_number_at(uint8_t *at, uint32_t number)
{
    for (unsigned i = 0; i < 4; i++)
        at[i] = (uint8_t)(number >> 8 * i);
}

/* The next bytes of the string, and zeros where it has ended. */
static void take(const uint8_t **bytes, size_t *length, uint8_t *to, size_t count)
{
    size_t there = *length < count ? *length : count;
    memset(to, 0, count);
    if (there > 0)
        memcpy(to, *bytes, there);
    *bytes += there;
    *length -= there;
}

struct input input_read(const uint8_t *bytes, size_t length)
{
    struct input input = {0};
    uint8_t header[HEADER], part[STRETCH];
    take(&bytes, &length, header, HEADER);
    input.call = header[CALL_AT];
    input.work = header[WORK_AT];
    input.out = header[OUT_AT];
    input.answer = header[ANSWER_AT];
    input.class = number_at(header + CLASS_AT);
    input.id = number_at(header + ID_AT);
    input.stretches = header[STRETCHES_AT] % (MOST_STRETCHES + 1);
    for (size_t i = 0; i < input.stretches; i++) {
        take(&bytes, &length, part, STRETCH);
        input.stretch[i] = (struct stretch){number_at(part), number_at(part + 4), number_at(part + 8), number_at(part + 12)};
    }
    size_t cell = number_at(header + CELL_AT);
    cell = cell < length ? cell : length;
    buffer_put(&input.file[CELL], bytes, cell);
    buffer_put(&input.file[UPDATE], bytes + cell, length - cell);
    return input;
}

void input_write(const struct input *input, struct buffer *bytes)
{
    uint8_t *header = buffer_more(bytes, HEADER);
    header[CALL_AT] = input->call;
    header[WORK_AT] = input->work;
    header[OUT_AT] = input->out;
    header[ANSWER_AT] = input->answer;
    set_number_at(header + CLASS_AT, input->class);
    set_number_at(header + ID_AT, input->id);
    set_number_at(header + CELL_AT, (uint32_t)input->file[CELL].length);
    header[STRETCHES_AT] = (uint8_t)input->stretches;
    for (size_t i = 0; i < input->stretches; i++) {
        const struct stretch *stretch = &input->stretch[i];
        uint8_t *part = buffer_more(bytes, STRETCH);
        set_number_at(part, stretch->at);
        set_number_at(part + 4, stretch->length);
        set_number_at(part + 8, stretch->times);
        set_number_at(part + 12, stretch->rising);
    }
    for (enum file file = 0; file < FILES; file++)
        buffer_put(bytes, input->file[file].bytes, input->file[file].length);
}

void input_free(struct input *input)
{
    for (enum file file = 0; file < FILES; file++)
        buffer_free(&input->file[file]);
}

/* ---- stretches */

static enum file file_of(const struct stretch *stretch)
{
    return (stretch->at & STRETCHES_UPDATE) != 0 ? UPDATE : CELL;
}

/* How many copies it brings a file of that length. */
static size_t copies(const struct stretch *stretch, size_t length)
{
    size_t at = stretch->at & ~STRETCHES_UPDATE;
    if (stretch->length == 0 || at > length || stretch->length > length - at || length > LONGEST_STRETCHED)
        return 0;
    size_t room = (LONGEST_STRETCHED - length) / stretch->length;
    return stretch->times < room ? stretch->times : room;
}

size_t stretched_length(const struct input *input)
{
    size_t length[FILES] = {input->file[CELL].length, input->file[UPDATE].length};
    for (size_t i = 0; i < input->stretches; i++) {
        size_t *stretched = &length[file_of(&input->stretch[i])];
        *stretched += copies(&input->stretch[i], *stretched) * input->stretch[i].length;
    }
    return length[CELL] + length[UPDATE];
}

static void work_in(const struct stretch *stretch, struct buffer *file)
{
    size_t at = stretch->at & ~STRETCHES_UPDATE, length = stretch->length, times = copies(stretch, file->length);
    if (times == 0)
        return;
    buffer_open(file, at + length, times * length);
    for (uint8_t *part = file->bytes + at; times > 0; times--, part += length) {
        memcpy(part + length, part, length);
        if (length >= 4 && stretch->rising <= length - 4)
            set_number_at(part + length + stretch->rising, number_at(part + stretch->rising) + 1);
    }
}

struct buffer stretched(const struct input *input, enum file file)
{
    struct buffer bytes = {0};
    buffer_put(&bytes, input->file[file].bytes, input->file[file].length);
    for (size_t i = 0; i < input->stretches; i++)
        if (file_of(&input->stretch[i]) == file)
            work_in(&input->stretch[i], &bytes);
    return bytes;
}

/* ---- lengths */

size_t length_lent(uint8_t byte, size_t needed)
{
    enum { ENOUGH, NONE, ONE_LESS, ONE_MORE, PARTS = 124, MORE = 128 };
    switch (byte) {
    case ENOUGH:
        return needed;
    case NONE:
        return 0;
    case ONE_LESS:
        return needed > 0 ? needed - 1 : 0;
    case ONE_MORE:
        return needed + 1;
    default:
        return byte < MORE ? needed * (size_t)(byte - ONE_MORE) / PARTS : needed + 7 * (size_t)(byte - MORE + 1);
    }
}

size_t answer_lent(uint8_t byte)
{
    enum { ANSWER = 16, LONGER = 33 };
    return byte == 0 ? ANSWER : byte % LONGER;
}
