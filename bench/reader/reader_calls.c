#include "reader_calls.h"

#include <string.h>

static void put_words(uint8_t *area, const uint32_t *word, size_t count)
{
    for (size_t i = 0; i < count; i++)
        for (unsigned byte = 0; byte < 4; byte++)
            area[4 * i + byte] = (uint8_t)(word[i] >> 8 * byte);
}

void put_answer(uint8_t *area, size_t length, size_t wanted, const struct answer *answer)
{
    const uint32_t words[] = {answer->code, answer->file, answer->record, answer->number, answer->offset};
    if (length == wanted)
        put_words(area, words, wanted / 4);
}

/* ---- framing and formats */

uint64_t framing_number(struct framing framing)
{
    return 2 * (uint64_t)framing.records + !framing.good;
}

static uint64_t call_frame(const uint8_t *file, size_t length)
{
    return framing_number(reader_frame(file, length));
}

void put_formats(uint8_t *out, const struct formats *written)
{
    memset(out, 0, FORMATS_OUT);
    put_words(out, written->primitive, written->count);
}

static uint32_t call_formats(const uint8_t *text, size_t length, uint8_t *out, size_t out_length)
{
    struct formats written;
    if (!reader_formats(text, length, &written))
        return 0;
    if (out_length == FORMATS_OUT)
        put_formats(out, &written);
    return written.count;
}

uint64_t cut_number(struct cut cut)
{
    return (uint64_t)cut.name_end + ((uint64_t)cut.labels_end << 32);
}

static uint64_t call_cut(const uint8_t *field, size_t length)
{
    struct cut cut;
    return reader_cut(field, length, &cut) ? cut_number(cut) : 0;
}

const struct frame_calls frame_reader = {call_frame, reader_fields, call_formats, call_cut};

/* ---- whole files: the reader has memory of its own, and leaves the work area as the loader does */

static uint32_t finish(struct answer answer, uint8_t *work, size_t work_length, uint8_t *area, size_t area_length, size_t wanted)
{
    memset(work, 0, work_length);
    put_answer(area, area_length, wanted, &answer);
    return answer.code;
}

static uint32_t call_read(const uint8_t *cell, size_t length, uint8_t *work, size_t work_length, uint8_t *area, size_t area_length)
{
    return finish(reader_read(cell, length, work_length), work, work_length, area, area_length, READ_ANSWER);
}

static uint32_t call_read_both(const uint8_t *cell, size_t cell_length, const uint8_t *update, size_t update_length, uint8_t *work,
                               size_t work_length, uint8_t *area, size_t area_length)
{
    struct answer answer = reader_read_both(cell, cell_length, update, update_length, work_length);
    return finish(answer, work, work_length, area, area_length, READ_ANSWER);
}

const struct read_calls read_reader = {call_read, call_read_both};

size_t part_length(const struct shown *shown)
{
    return shown->answer.code == CODE_DONE ? shown->answer.number : 0;
}

void put_part(uint8_t *out, size_t length, const struct shown *shown)
{
    if (part_length(shown) > 0 && part_length(shown) <= length)
        memcpy(out, shown->part, part_length(shown));
}

static size_t call_show(const uint8_t *cell, size_t cell_length, const uint8_t *update, size_t update_length, uint8_t *work, size_t work_length,
                        uint8_t *area, size_t area_length, uint8_t *out, size_t out_length, uint32_t class, uint32_t id)
{
    struct shown shown = reader_show(cell, cell_length, update, update_length, work_length, class, id);
    finish(shown.answer, work, work_length, area, area_length, ANSWER);
    put_part(out, out_length, &shown);
    return part_length(&shown);
}

const struct show_calls show_reader = {call_show};

static uint32_t call_judge(const uint8_t *cell, size_t cell_length, uint8_t *work, size_t work_length, uint8_t *area, size_t area_length)
{
    return finish(reader_judge(cell, cell_length, work_length), work, work_length, area, area_length, ANSWER);
}

static uint32_t call_admit(const uint8_t *cell, size_t cell_length, uint8_t *out, size_t out_length, uint8_t *work, size_t work_length, uint8_t *area,
                           size_t area_length)
{
    return finish(reader_admit(cell, cell_length, work_length, out, out_length), work, work_length, area, area_length, ANSWER);
}

static uint32_t call_apply(const uint8_t *cell, size_t cell_length, const uint8_t *update, size_t update_length, uint8_t *out, size_t out_length,
                           uint8_t *work, size_t work_length, uint8_t *area, size_t area_length)
{
    struct answer answer = reader_apply(cell, cell_length, update, update_length, work_length, out, out_length);
    return finish(answer, work, work_length, area, area_length, ANSWER);
}

const struct loader loader_reader = {call_judge, call_admit, call_apply};
