/* The test of offers: two units that keep one cell up to date, each with what Admit wrote and Apply then wrote over it, are offered files at random: the next
   update, one that is in already, one too early, damaged copies, files of other cells and editions, and files that are no updates; with areas that are too
   short, just enough and more. Now and then a unit begins again, from the base or from the other's re-issue. After each offer:
     the answer is the C reader's, and the areas are what they must be;
     the unit shows the number that it showed, or the next one where the offer was taken;
     its cell is the C reader's own re-issue of the base with every update up to that number, each once and in order;
     and where both units show one number, they hold the same bytes.
   usage: offers [OFFERS [FIRST_SEED]]   default 10,000; a series of ten updates is made for every hundred */
#include "../../host/s57loader.h"
#include "../generators/generate_apply.h"
#include "../reader/reader.h"
#include "areas.h"
#include "tally.h"

#include <inttypes.h>
#include <stdio.h>
#include <stdlib.h>
#include <string.h>

enum { DEFAULT_OFFERS = 10000, OFFERS_A_SERIES = 100, UNITS = 2, STATES = SERIES + 1 };

/* ---- a series, and the re-issue of each number */

struct track {
    uint64_t seed;
    struct series series;
    struct buffer state[STATES]; /* by the C reader: the base's re-issue, then with each update */
    uint32_t first;              /* the number that the base shows */
};

/* UPDN in DSID, the second field of record 1: behind RCNM, RCID, EXPP and INTU, DSNM and EDTN. */
static uint32_t number_shown(const struct buffer *cell)
{
    enum { BEFORE_EDITION = 7 + 12 + 1, UNIT_END = 0x1F };
    struct record record = reader_record(cell->bytes, reader_record(cell->bytes, 0).end);
    const uint8_t *at = cell->bytes + reader_field(cell->bytes, &record, 1).start + BEFORE_EDITION;
    uint32_t number = 0;
    while (*at++ != UNIT_END)
        ;
    for (; *at != UNIT_END; at++)
        number = number * 10 + (uint32_t)(*at - '0');
    return number;
}

/* The C reader's re-issue of a cell, with an update or without; empty where it refuses. */
static struct buffer reissue_of(const struct buffer *cell, const struct buffer *update)
{
    struct buffer held = {0};
    struct answer answer = {0};
    for (int call = 0; call < 2; call++) {
        answer = update == NULL ? reader_admit(cell->bytes, cell->length, SIZE_MAX, held.bytes, held.length)
                                : reader_apply(cell->bytes, cell->length, update->bytes, update->length, SIZE_MAX, held.bytes, held.length);
        if (answer.code == CODE_ROOM)
            buffer_more(&held, answer.number);
    }
    if (answer.code != CODE_DONE)
        buffer_free(&held);
    return held;
}

static bool same_bytes(const struct buffer *left, const struct buffer *right)
{
    return left->length == right->length && left->length > 0 && memcmp(left->bytes, right->bytes, left->length) == 0;
}

/* The generator knows the results too: the reader is held to them. */
static bool track_open(struct track *track, uint64_t seed)
{
    *track = (struct track){.seed = seed, .series = series_make(seed)};
    track->state[0] = reissue_of(&track->series.base, NULL);
    bool good = same_bytes(&track->state[0], &track->series.step[0].cell);
    for (size_t i = 0; i < SERIES && good; i++) {
        track->state[i + 1] = reissue_of(&track->state[i], &track->series.step[i].update);
        good = same_bytes(&track->state[i + 1], &track->series.step[i].held);
    }
    track->first = good ? number_shown(&track->state[0]) : 0;
    return good;
}

static void track_close(struct track *track)
{
    for (size_t i = 0; i < STATES; i++)
        buffer_free(&track->state[i]);
    series_free(&track->series);
}

/* ---- the files that are offered */

enum file { THE_NEXT, IN_ALREADY, TOO_EARLY, CUT_SHORT, CHANGED, OTHER_CELL, OTHER_NAME, OTHER_EDITION, NO_UPDATE, FILES };

static const char *const file_names[FILES] = {"the next update",          "an update that is in already", "an update too early",
                                              "a copy cut short",         "a copy with bytes changed",    "an update of another cell",
                                              "the next of another name", "the next of another edition",  "no update"};

/* Of sixteen offers six are the next update, so that a series is worked in while others come in between. `step` is how many updates are in: at first none
   is in already, and at last none is left. */
static enum file any_file(size_t step, struct random *random)
{
    static const enum file often[16] = {THE_NEXT,  THE_NEXT,  THE_NEXT, THE_NEXT, THE_NEXT,   THE_NEXT,   IN_ALREADY,    IN_ALREADY,
                                        TOO_EARLY, CUT_SHORT, CHANGED,  CHANGED,  OTHER_CELL, OTHER_NAME, OTHER_EDITION, NO_UPDATE};
    enum file file = often[random_below(random, 16)];
    if (file == IN_ALREADY && step == 0)
        return THE_NEXT;
    if (file == TOO_EARLY && step + 1 >= SERIES)
        return step < SERIES ? THE_NEXT : IN_ALREADY;
    return file == THE_NEXT && step == SERIES ? IN_ALREADY : file;
}

static struct buffer copy_of(const struct buffer *from)
{
    struct buffer copy = {0};
    buffer_put(&copy, from->bytes, from->length);
    return copy;
}

/* Where DSID's content begins. */
static uint8_t *identification(const struct buffer *file)
{
    struct record record = reader_record(file->bytes, reader_record(file->bytes, 0).end);
    return file->bytes + reader_field(file->bytes, &record, 1).start;
}

/* Another letter or digit than the one that stands there, and not 0. */
static void change_letter(uint8_t *at)
{
    *at = *at == '7' ? '3' : '7';
}

/* One to three bytes, anywhere. */
static void change_bytes(struct buffer *file, struct random *random)
{
    for (uint32_t times = random_between(random, 1, 3); times > 0; times--)
        file->bytes[random_below(random, (uint32_t)file->length)] ^= (uint8_t)random_between(random, 1, 255);
}

/* The base, the unit's own cell, or nothing. */
static struct buffer no_update(const struct track *track, const struct buffer *cell, struct random *random)
{
    switch (random_below(random, 3)) {
    case 0:
        return copy_of(&track->series.base);
    case 1:
        return copy_of(cell);
    default:
        return (struct buffer){0};
    }
}

/* Which update of the series it is, or a copy of which; behind the last one the last. */
static size_t index_of(enum file file, size_t step, struct random *random)
{
    size_t index = step;
    if (file == IN_ALREADY)
        index = random_one_in(random, 2) ? step - 1 : random_below(random, (uint32_t)step);
    if (file == TOO_EARLY)
        index = random_between(random, (uint32_t)step + 1, SERIES - 1);
    if (file == CHANGED && random_one_in(random, 3))
        index = random_below(random, SERIES);
    return index < SERIES ? index : SERIES - 1;
}

static struct buffer make_file(enum file file, const struct track *track, const struct track *other, const struct buffer *cell, size_t step,
                               struct random *random)
{
    enum { LAST_LETTER = 7 + 7, EDITION = 7 + 12 + 1 }; /* of DSNM; EDTN */
    if (file == NO_UPDATE)
        return no_update(track, cell, random);
    if (file == OTHER_CELL)
        return copy_of(&other->series.step[random_below(random, SERIES)].update);
    struct buffer made = copy_of(&track->series.step[index_of(file, step, random)].update);
    if (file == CUT_SHORT)
        made.length = random_below(random, (uint32_t)made.length);
    else if (file == CHANGED)
        change_bytes(&made, random);
    else if (file == OTHER_NAME)
        change_letter(identification(&made) + LAST_LETTER);
    else if (file == OTHER_EDITION)
        change_letter(identification(&made) + EDITION);
    return made;
}

/* ---- one call, with areas of any length */

struct call {
    const struct buffer *cell, *update; /* the update may be null: Admit */
    struct answer reader;
    size_t work_length, out_length, answer_length;
    uint8_t *work, *out, *expected_out, *area;
    uint32_t code;
};

/* An area where so many bytes suffice: now none, now too short, just enough, or more. */
static size_t any_length(size_t needed, struct random *random)
{
    switch (random_below(random, 8)) {
    case 0:
        return 0;
    case 1:
        return needed > 0 ? needed - 1 : 0;
    case 2:
        return random_below(random, (uint32_t)needed + 1);
    case 3:
        return needed + random_between(random, 1, 5000);
    default:
        return needed;
    }
}

static struct answer ask_reader(const struct call *call, size_t work_length, uint8_t *out, size_t out_length)
{
    const struct buffer *cell = call->cell, *update = call->update;
    return update == NULL ? reader_admit(cell->bytes, cell->length, work_length, out, out_length)
                          : reader_apply(cell->bytes, cell->length, update->bytes, update->length, work_length, out, out_length);
}

/* Lengths by what suffices, which the reader says. Where `ample` all suffice. */
static void choose_lengths(struct call *call, bool ample, struct random *random)
{
    struct answer needed = ask_reader(call, 0, NULL, 0);
    size_t work = needed.code == CODE_WORK ? needed.number : 0;
    needed = ask_reader(call, SIZE_MAX, NULL, 0);
    size_t out = needed.code == CODE_ROOM ? needed.number : call->cell->length;
    call->work_length = ample ? work : any_length(work, random);
    call->out_length = ample ? out : any_length(out, random);
    call->answer_length = !ample && random_one_in(random, 16) ? random_below(random, 2 * S57_ANSWER) : S57_ANSWER;
}

static void call_open(struct call *call, bool ample, struct random *random)
{
    choose_lengths(call, ample, random);
    call->work = lent_area(call->work_length);
    call->out = lent_area(call->out_length);
    call->expected_out = lent_area(call->out_length);
    call->area = lent_area(call->answer_length);
    call->reader = ask_reader(call, call->work_length, call->expected_out, call->out_length);
    call->code = call->update == NULL
                     ? s57_admit(call->cell->bytes, call->cell->length, call->out, call->out_length, call->work, call->work_length, call->area,
                                 call->answer_length)
                     : s57_apply(call->cell->bytes, call->cell->length, call->update->bytes, call->update->length, call->out, call->out_length,
                                 call->work, call->work_length, call->area, call->answer_length);
}

static void call_close(struct call *call)
{
    lent_free(call->work);
    lent_free(call->out);
    lent_free(call->expected_out);
    lent_free(call->area);
}

/* The answer area has the reader's answer, or is untouched where it has another length. */
static bool answer_right(const struct call *call)
{
    if (call->answer_length != S57_ANSWER)
        return all_are(call->area, call->answer_length, PATTERN);
    struct s57_answer answer = s57_answer_read(call->area);
    return answer.code == call->reader.code && answer.file == call->reader.file && answer.record == call->reader.record &&
           answer.number == call->reader.number;
}

static const char *call_wrong(const struct call *call)
{
    if (call->code != call->reader.code || !answer_right(call))
        return "the answer isn't the C reader's";
    if (!all_are(call->work, call->work_length, 0))
        return "the work area isn't zero";
    if (memcmp(call->out, call->expected_out, call->out_length) != 0)
        return "the output area isn't the C reader's";
    if (!guards_kept(call->work, call->work_length) || !guards_kept(call->out, call->out_length) || !guards_kept(call->area, call->answer_length))
        return "bytes beside an area were changed";
    return NULL;
}

/* ---- units */

/* What a series is offered to, and where it stands. */
struct stage {
    struct tally *tally;
    struct track track, other;  /* `other` is the series of another cell */
    struct buffer units[UNITS]; /* the cell of each */
    size_t count;               /* of offers so far; 0 before the first and behind the last */
    struct random random;
};

static bool note(struct stage *stage, const char *row, uint32_t code, const char *wrong)
{
    if (wrong != NULL)
        printf("DIFFERS: %s; %s, code %u, offer %zu of series %" PRIu64 "\n", wrong, row, (unsigned)code, stage->count, stage->track.seed);
    tally_add(stage->tally, row, code, wrong == NULL);
    return wrong == NULL;
}

/* As document 01 has it: where the call gave 0, what it wrote takes the place of the unit's bytes, as many as Number says; else they stay. Number is the
   reader's where the answer area has another length, which no host can read. */
static void follow_call(struct buffer *unit, const struct call *call)
{
    if (call->code != S57_DONE)
        return;
    struct buffer next = {0};
    buffer_put(&next, call->out, call->answer_length == S57_ANSWER ? s57_answer_read(call->area).number : call->reader.number);
    buffer_free(unit);
    *unit = next;
}

/* How many updates are in, by the number that the unit shows; STATES where the series has no such number. */
static size_t step_of(const struct track *track, const struct buffer *unit)
{
    uint32_t number = number_shown(unit);
    return number >= track->first && number - track->first < STATES ? number - track->first : STATES;
}

/* Makes the call; a unit that shows `taken` updates if it gives 0, and else as many as before, is right. */
static const char *perform(struct stage *stage, size_t index, struct call *call, bool ample, size_t taken)
{
    struct buffer *unit = &stage->units[index];
    size_t before = unit->length > 0 ? step_of(&stage->track, unit) : STATES;
    call_open(call, ample, &stage->random);
    const char *wrong = call_wrong(call);
    if (wrong != NULL)
        return wrong;
    follow_call(unit, call);
    if (ample && call->code != S57_DONE)
        return "it is refused, with room enough";
    size_t step = step_of(&stage->track, unit);
    if (step != (call->code == S57_DONE ? taken : before))
        return "the number jumps";
    if (step == STATES || !same_bytes(unit, &stage->track.state[step]))
        return "the unit's cell isn't the base with every update up to its number";
    const struct buffer *other = &stage->units[1 - index];
    if (other->length > 0 && number_shown(unit) == number_shown(other) && !same_bytes(unit, other))
        return "two units with one number hold other bytes";
    return NULL;
}

static bool run_call(struct stage *stage, const char *row, size_t index, const struct buffer *cell, const struct buffer *update, bool ample,
                     size_t taken)
{
    struct buffer lent = copy_of(cell), kept = copy_of(cell);
    struct call call = {.cell = &lent, .update = update};
    const char *wrong = perform(stage, index, &call, ample, taken);
    if (wrong == NULL && !same_bytes(&lent, &kept))
        wrong = "the cell that was lent was changed";
    bool good = note(stage, row, call.code, wrong);
    call_close(&call);
    buffer_free(&lent);
    buffer_free(&kept);
    return good;
}

/* ---- offers */

/* A copy whose damage no loader can see, because a free value was changed, is an update of its own: it would make another chart of that number, and
   nothing is promised of two updates with one number. */
static bool is_rival(const struct track *track, const struct buffer *unit, const struct buffer *update, size_t step)
{
    struct buffer result = reissue_of(unit, update);
    bool rival = result.length > 0 && (step == SERIES || !same_bytes(&result, &track->state[step + 1]));
    buffer_free(&result);
    return rival;
}

static bool offer_any(struct stage *stage)
{
    size_t index = random_below(&stage->random, UNITS), step = step_of(&stage->track, &stage->units[index]);
    const struct buffer *unit = &stage->units[index];
    enum file file = any_file(step, &stage->random);
    struct buffer update = make_file(file, &stage->track, &stage->other, unit, step, &stage->random);
    while (is_rival(&stage->track, unit, &update, step)) {
        buffer_free(&update);
        update = make_file(file, &stage->track, &stage->other, unit, step, &stage->random);
    }
    bool good = run_call(stage, file_names[file], index, unit, &update, false, step + 1);
    buffer_free(&update);
    return good;
}

/* A unit begins again, from the base or from the other's re-issue; where Admit refuses for want of room, it keeps what it has. */
static bool begin_again(struct stage *stage)
{
    size_t index = random_below(&stage->random, UNITS);
    const struct buffer *other = &stage->units[1 - index];
    if (random_one_in(&stage->random, 3))
        return run_call(stage, "begun again from the base", index, &stage->track.series.base, NULL, false, 0);
    return run_call(stage, "begun again from the other's re-issue", index, other, NULL, false, step_of(&stage->track, other));
}

static bool begin(struct stage *stage)
{
    bool good = true;
    for (size_t i = 0; i < UNITS && good; i++)
        good = run_call(stage, "begun from the base", i, &stage->track.series.base, NULL, true, 0);
    return good;
}

/* Whatever came before: the rest in order, with room enough, brings both to the last number. */
static bool bring_up(struct stage *stage)
{
    bool good = true;
    stage->count = 0;
    for (size_t i = 0; i < UNITS; i++)
        for (size_t step = step_of(&stage->track, &stage->units[i]); step < SERIES && good; step++)
            good = run_call(stage, "the rest in order, with room enough", i, &stage->units[i], &stage->track.series.step[step].update, true, step + 1);
    return good && note(stage, "both at the last number", S57_DONE,
                        same_bytes(&stage->units[0], &stage->units[1]) ? NULL : "two units with one number hold other bytes");
}

/* ---- all */

static void run_series(struct tally *tally, uint64_t seed, size_t offers)
{
    struct stage stage = {.tally = tally, .random = {seed ^ UINT64_C(0x0FFE25)}};
    bool good = track_open(&stage.track, seed) && track_open(&stage.other, ~seed);
    note(&stage, "series of ten updates, by the C reader", CODE_DONE, good ? NULL : "it isn't the generator's");
    good = good && begin(&stage);
    for (stage.count = 1; stage.count <= offers && good; stage.count++) {
        if (random_one_in(&stage.random, 20))
            good = begin_again(&stage);
        good = good && offer_any(&stage);
    }
    if (good)
        bring_up(&stage);
    for (size_t i = 0; i < UNITS; i++)
        buffer_free(&stage.units[i]);
    track_close(&stage.track);
    track_close(&stage.other);
}

/* A code that no offer got would go untried. */
static void demand_codes(struct tally *tally)
{
    static const uint32_t wanted[] = {CODE_DONE,  CODE_FRAME,   CODE_WORK,   CODE_DESCRIBED, CODE_LAYOUT,
                                      CODE_VALUE, CODE_OTHER, CODE_EDITION, CODE_NUMBER,    CODE_ROOM};
    for (size_t i = 0; i < sizeof wanted / sizeof wanted[0]; i++) {
        uint64_t count = 0;
        for (size_t row = 0; row < tally->kinds; row++)
            count += tally->codes[row][wanted[i]];
        tally_add(tally, "codes that came up", wanted[i], count > 0);
    }
}

int main(int words, char **word)
{
    static struct tally tally;
    uint64_t offers = words > 1 ? strtoull(word[1], NULL, 10) : DEFAULT_OFFERS;
    uint64_t seed = words > 2 ? strtoull(word[2], NULL, 10) : 0;
    keep_memory();
    for (size_t i = 0; i < FILES; i++)
        tally_list(&tally, file_names[i]);
    for (uint64_t done = 0; done < offers; done += OFFERS_A_SERIES)
        run_series(&tally, seed++, offers - done < OFFERS_A_SERIES ? offers - done : OFFERS_A_SERIES);
    if (offers >= DEFAULT_OFFERS)
        demand_codes(&tally);
    return tally_close(&tally);
}
