#include "check.h"

#include "../tests/areas.h"
#include "../tuned/tuned.h"

#include <stdlib.h>
#include <string.h>

const struct side tuned_side = {"the tuned reader", {tuned_judge, tuned_admit, tuned_apply}, {NULL}};

/* ---- one call */

struct asked {
    enum call call;
    struct buffer cell, update; /* whose bytes another has */
    uint32_t class, id;
    size_t work_length, out_length, answer_length;
};

/* What the plain reader leaves, and what a side does. */
struct left {
    struct answer answer; /* of the reader alone */
    uint64_t returned;
    uint8_t *out, *area, *work;
};

static struct left left_open(const struct asked *asked)
{
    return (struct left){.out = lent_area(asked->out_length), .area = lent_area(asked->answer_length), .work = lent_area(asked->work_length)};
}

static void left_close(struct left *left)
{
    lent_free(left->out);
    lent_free(left->area);
    lent_free(left->work);
}

static struct answer ask_show(const struct asked *asked, const uint8_t *cell, const uint8_t *update, size_t work_length, struct left *left)
{
    struct shown shown = reader_show(cell, asked->cell.length, update, asked->update.length, work_length, asked->class, asked->id);
    left->returned = part_length(&shown);
    put_part(left->out, asked->out_length, &shown);
    return shown.answer;
}

/* The reader gets copies of exactly the files' bytes, so that a read beside them is seen by the tools that watch for one. */
static struct answer ask_reader(const struct asked *asked, size_t work_length, struct left *left)
{
    uint8_t *cell = exact_copy(&asked->cell), *update = exact_copy(&asked->update);
    size_t cell_length = asked->cell.length, update_length = asked->update.length;
    struct answer answer = {0};
    if (asked->call == JUDGE)
        answer = reader_judge(cell, cell_length, work_length);
    else if (asked->call == ADMIT)
        answer = reader_admit(cell, cell_length, work_length, left->out, asked->out_length);
    else if (asked->call == APPLY)
        answer = reader_apply(cell, cell_length, update, update_length, work_length, left->out, asked->out_length);
    else
        answer = ask_show(asked, cell, update, work_length, left);
    if (asked->call != SHOW)
        left->returned = answer.code;
    put_answer(left->area, asked->answer_length, ANSWER, &answer);
    free(cell);
    free(update);
    return answer;
}

static void ask_side(const struct side *side, const struct asked *asked, const uint8_t *cell, const uint8_t *update, struct left *left)
{
    size_t cell_length = asked->cell.length, update_length = asked->update.length, work_length = asked->work_length, area_length = asked->answer_length;
    if (asked->call == JUDGE)
        left->returned = side->loader.judge(cell, cell_length, left->work, work_length, left->area, area_length);
    else if (asked->call == ADMIT)
        left->returned = side->loader.admit(cell, cell_length, left->out, asked->out_length, left->work, work_length, left->area, area_length);
    else if (asked->call == APPLY)
        left->returned = side->loader.apply(cell, cell_length, update, update_length, left->out, asked->out_length, left->work, work_length, left->area,
                                            area_length);
    else
        left->returned = side->show.show(cell, cell_length, update, update_length, left->work, work_length, left->area, area_length, left->out,
                                         asked->out_length, asked->class, asked->id);
}

static bool has_call(const struct side *side, enum call call)
{
    return call == JUDGE ? side->loader.judge != NULL : call == ADMIT ? side->loader.admit != NULL : call == APPLY ? side->loader.apply != NULL
                                                                                                                   : side->show.show != NULL;
}

/* ---- what a host sees */

/* The reader itself: what it leaves in the output beyond the bytes that it wrote, and beside the areas, is untouched. */
static const char *reader_wrong(const struct asked *asked, const struct left *reader)
{
    size_t written = 0;
    if (asked->call == SHOW)
        written = reader->returned <= asked->out_length ? reader->returned : 0;
    else if (asked->call != JUDGE && reader->answer.code == CODE_DONE)
        written = reader->answer.number;
    if (!all_are(reader->out + written, asked->out_length - written, PATTERN) || !guards_kept(reader->out, asked->out_length))
        return "bytes of the output beyond what was written";
    return guards_kept(reader->area, asked->answer_length) ? NULL : "bytes beside the answer area";
}

static bool file_kept(const uint8_t *guarded, const struct buffer *file)
{
    return guards_kept(guarded, file->length) && (file->length == 0 || memcmp(guarded, file->bytes, file->length) == 0);
}

static const char *side_wrong(const struct asked *asked, const struct left *reader, const struct left *side)
{
    if (side->returned != reader->returned)
        return "the number returned";
    if (memcmp(side->area, reader->area, asked->answer_length) != 0)
        return "the answer area";
    if (memcmp(side->out, reader->out, asked->out_length) != 0)
        return "the output";
    if (!all_are(side->work, asked->work_length, 0))
        return "the work area, which isn't zero";
    if (!guards_kept(side->out, asked->out_length) || !guards_kept(side->area, asked->answer_length) || !guards_kept(side->work, asked->work_length))
        return "bytes beside an area";
    return NULL;
}

static const char *check_side(const struct side *side, const struct asked *asked, const struct left *reader)
{
    uint8_t *cell = guarded_copy(&asked->cell), *update = guarded_copy(&asked->update);
    struct left left = left_open(asked);
    ask_side(side, asked, cell, update, &left);
    const char *wrong = side_wrong(asked, reader, &left);
    if (wrong == NULL && (!file_kept(cell, &asked->cell) || !file_kept(update, &asked->update)))
        wrong = "a file, or bytes beside it";
    left_close(&left);
    lent_free(cell);
    lent_free(update);
    return wrong;
}

/* The reader's side stays open, for its output. */
static struct checked check_call(const struct asked *asked, const struct side *sides, size_t count, struct left *reader)
{
    *reader = left_open(asked);
    reader->answer = ask_reader(asked, asked->work_length, reader);
    struct checked checked = {.answer = reader->answer, .wrong = reader_wrong(asked, reader), .side = "the plain reader"};
    for (size_t i = 0; i < count && checked.wrong == NULL; i++)
        if (has_call(&sides[i], asked->call)) {
            checked.wrong = check_side(&sides[i], asked, reader);
            checked.side = sides[i].name;
        }
    return checked;
}

/* ---- lengths that suffice */

static size_t work_needed(const struct asked *asked)
{
    size_t records = reader_frame(asked->cell.bytes, asked->cell.length).records;
    if (asked->call == APPLY || asked->call == SHOW)
        records += reader_frame(asked->update.bytes, asked->update.length).records;
    return WORK_A_RECORD * records;
}

/* By the reader, which has no output yet. What is refused has a few bytes, so that whoever writes before judging has room to. */
static size_t out_needed(const struct asked *asked)
{
    enum { FEW = 256 };
    struct asked before = *asked;
    before.out_length = before.answer_length = before.work_length = 0;
    if (asked->call == JUDGE)
        return 0;
    struct left left = left_open(&before);
    struct answer answer = ask_reader(&before, SIZE_MAX, &left);
    left_close(&left);
    return answer.code == CODE_ROOM || answer.code == CODE_DONE ? answer.number : FEW;
}

/* ---- a re-issue goes on */

static struct checked expect(struct asked *asked, uint32_t code, const struct buffer *written, const struct side *sides, size_t count)
{
    struct left reader;
    asked->work_length = work_needed(asked);
    asked->out_length = written->length;
    asked->answer_length = ANSWER;
    struct checked checked = check_call(asked, sides, count, &reader);
    if (checked.wrong == NULL && checked.answer.code != code)
        checked = (struct checked){checked.answer, "the code of a re-issue", "all"};
    if (checked.wrong == NULL && asked->call == ADMIT && memcmp(reader.out, written->bytes, written->length) != 0)
        checked = (struct checked){checked.answer, "the re-issue of a re-issue", "all"};
    left_close(&reader);
    return checked;
}

static struct checked go_on(const struct asked *asked, const struct buffer *held, const struct side *sides, size_t count)
{
    struct asked next = {.call = JUDGE, .cell = *held};
    struct checked checked = expect(&next, CODE_DONE, held, sides, count);
    if (checked.wrong != NULL)
        return checked;
    next.call = ADMIT;
    checked = expect(&next, CODE_DONE, held, sides, count);
    if (checked.wrong != NULL || asked->call != APPLY)
        return checked;
    next.call = APPLY;
    next.update = asked->update;
    return expect(&next, CODE_NUMBER, held, sides, count);
}

/* ---- an input */

struct checked check_input(const struct input *input, const struct side *sides, size_t count)
{
    struct buffer cell = stretched(input, CELL), update = {0};
    struct left reader;
    if (has_update(input))
        update = stretched(input, UPDATE);
    struct asked asked = {.call = call_of(input), .cell = cell, .update = update, .class = input->class, .id = input->id};
    size_t out = out_needed(&asked);
    asked.work_length = length_lent(input->work, work_needed(&asked));
    asked.out_length = length_lent(input->out, out);
    asked.answer_length = answer_lent(input->answer);
    struct checked checked = check_call(&asked, sides, count, &reader);
    if (checked.wrong == NULL && checked.answer.code == CODE_DONE && (asked.call == ADMIT || asked.call == APPLY)) {
        struct buffer held = {.bytes = reader.out, .length = reader.answer.number};
        struct checked later = go_on(&asked, &held, sides, count);
        checked.wrong = later.wrong;
        checked.side = later.side;
    }
    left_close(&reader);
    buffer_free(&cell);
    buffer_free(&update);
    return checked;
}
