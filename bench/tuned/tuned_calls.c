/* The calls: the stages in document 01's order, and what they leave in the areas lent to them. */
#include "tuned.h"
#include "tuned_parts.h"

enum { ANSWER = 16, WORK_A_RECORD = 16 };

/* ---- memory: the names of the cell, of the update and of what comes of both */

enum { CHARTS = 3, RESULT = 2, MOST_NAMES = 2 * MOST_ITEMS };

static uint32_t ids[CHARTS][CLASSES][MOST_NAMES], records[CHARTS][CLASSES][MOST_NAMES], firsts[CHARTS][CLASSES][2 * MOST_NAMES + 2];
static struct ends ends[CHARTS][MOST_NAMES];

static void chart_open(struct chart *chart, size_t number)
{
    *chart = (struct chart){.ends = ends[number]};
    for (size_t class = 0; class < CLASSES; class++)
        chart->names[class] = (struct names){.ids = ids[number][class], .records = records[number][class], .rising = true,
                                             .guide = {.first = firsts[number][class]}};
}

static void file_open(struct file *file, const uint8_t *bytes, size_t length, bool update)
{
    *file = (struct file){.bytes = bytes, .length = length, .update = update, .first = update ? MOST_RECORDS : 0};
    chart_open(&file->chart, update);
}

/* ---- answers */

static struct answer refusal(const struct file *file, enum code code, size_t record)
{
    return (struct answer){.code = code, .file = file->update ? 2 : 1, .record = (uint32_t)record};
}

static bool unframed(const struct file *file)
{
    return file->code == CODE_LONG || file->code == CODE_FRAME;
}

/* Codes 4 to 8 of a file that is well framed. */
static struct answer file_answer(struct file *file)
{
    if (file->code != CODE_DONE)
        return refusal(file, file->code, file->fault);
    size_t twice = sort_chart(&file->chart);
    if (twice != SIZE_MAX)
        return refusal(file, CODE_TWICE, twice - file->first);
    if (!file->update && memcmp(file->said, file->chart.counted, sizeof file->said) != 0)
        return refusal(file, CODE_COUNTS, 1);
    return (struct answer){0};
}

/* Codes 1 to 8 of a cell. */
static struct answer read_cell(struct file *cell, size_t work_length, bool held_lengths)
{
    feature_count = relation_count = joined_length = 0;
    read_file(cell, held_lengths);
    if (unframed(cell))
        return refusal(cell, cell->code, cell->fault);
    if (work_length < WORK_A_RECORD * cell->records)
        return (struct answer){.code = CODE_WORK, .number = (uint32_t)(WORK_A_RECORD * cell->records)};
    return file_answer(cell);
}

static uint32_t finish(const struct answer *answer, uint8_t *work, size_t work_length, uint8_t *area, size_t area_length)
{
    const uint32_t words[] = {answer->code, answer->file, answer->record, answer->number};
    if (work_length > 0)
        memset(work, 0, work_length);
    if (area_length == ANSWER)
        memcpy(area, words, ANSWER);
    return answer->code;
}

/* ---- Judge and Admit */

static struct answer judge(struct file *cell, size_t work_length, bool held_lengths)
{
    struct answer answer = read_cell(cell, work_length, held_lengths);
    if (answer.code == CODE_DONE) {
        size_t place;
        enum code code = topology_fault(&cell->chart, &place);
        if (code != CODE_DONE)
            return refusal(cell, code, place);
    }
    return answer;
}

uint32_t tuned_judge(const uint8_t *cell, size_t cell_length, uint8_t *work, size_t work_length, uint8_t *answer, size_t answer_length)
{
    struct file file;
    file_open(&file, cell, cell_length, false);
    struct answer judged = judge(&file, work_length, false);
    return finish(&judged, work, work_length, answer, answer_length);
}

uint32_t tuned_admit(const uint8_t *cell, size_t cell_length, uint8_t *out, size_t out_length, uint8_t *work, size_t work_length, uint8_t *answer,
                     size_t answer_length)
{
    struct file file;
    file_open(&file, cell, cell_length, false);
    struct answer admitted = judge(&file, work_length, true);
    if (admitted.code == CODE_DONE)
        admitted = write_held(&file, NULL, &file.chart, out, out_length);
    return finish(&admitted, work, work_length, answer, answer_length);
}

/* ---- Apply */

/* Of an update whose cell is refused only the framing counts. */
static void read_update(struct file *update, const struct file *cell)
{
    if (cell->code == CODE_DONE) {
        update->north = cell->north;
        read_file(update, true);
    } else if (update->length > LONGEST_FILE) {
        update->code = CODE_LONG;
    } else if (update->length == 0 || !frame_rest(update, update->bytes, 0, &update->records)) {
        update->code = CODE_FRAME;
        update->fault = update->records;
    }
}

/* Codes 1 to 8 of both. */
static struct answer read_both(struct file *cell, struct file *update, size_t work_length)
{
    feature_count = relation_count = joined_length = 0;
    read_file(cell, true);
    if (unframed(cell))
        return refusal(cell, cell->code, cell->fault);
    read_update(update, cell);
    if (unframed(update))
        return refusal(update, update->code, update->fault);
    size_t needed = WORK_A_RECORD * (cell->records + update->records);
    if (work_length < needed)
        return (struct answer){.code = CODE_WORK, .number = (uint32_t)needed};
    struct answer answer = file_answer(cell);
    return answer.code != CODE_DONE ? answer : file_answer(update);
}

static struct answer apply(struct file *cell, struct file *update, uint8_t *out, size_t out_length)
{
    struct chart result;
    size_t record = 1;
    enum code code = follow_fault(cell, update);
    chart_open(&result, RESULT);
    if (code == CODE_DONE)
        code = work_in(cell, update, &result, &record);
    if (code != CODE_DONE)
        return refusal(update, code, record);
    code = topology_fault(&result, &record);
    if (code != CODE_DONE)
        return (struct answer){.code = code, .file = 3, .record = (uint32_t)record};
    return write_held(cell, update, &result, out, out_length);
}

uint32_t tuned_apply(const uint8_t *cell, size_t cell_length, const uint8_t *update, size_t update_length, uint8_t *out, size_t out_length, uint8_t *work,
                     size_t work_length, uint8_t *answer, size_t answer_length)
{
    struct file held, said;
    file_open(&held, cell, cell_length, false);
    file_open(&said, update, update_length, true);
    struct answer applied = read_both(&held, &said, work_length);
    if (applied.code == CODE_DONE)
        applied = apply(&held, &said, out, out_length);
    return finish(&applied, work, work_length, answer, answer_length);
}
