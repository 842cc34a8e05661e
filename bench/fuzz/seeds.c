/* Writes the inputs that the fuzzer starts from: of each call, each kind of case that the generators know and each code the smallest file or pair of many
   seeds; and, for the codes that only large files get, some made of stretches.
   usage: seeds FOLDER [SEEDS] */
#include "../generators/generate_apply.h"
#include "../tests/ask_show.h"
#include "check.h"

#include <stdio.h>
#include <stdlib.h>
#include <string.h>

enum { DEFAULT_SEEDS = 8000, MOST_SEEDS_KEPT = 4096, SMALL = 6000 };

/* ---- the smallest of each */

struct kept {
    const char *kind;
    enum call call;
    uint32_t code;
    struct buffer bytes;
};

struct shelf {
    struct kept kept[MOST_SEEDS_KEPT];
    size_t count;
};

static struct kept *place_for(struct shelf *shelf, const struct kept *like)
{
    size_t at = 0;
    while (at < shelf->count && (shelf->kept[at].call != like->call || shelf->kept[at].code != like->code || strcmp(shelf->kept[at].kind, like->kind) != 0))
        at++;
    if (at == shelf->count && at < MOST_SEEDS_KEPT)
        shelf->kept[shelf->count++] = *like;
    return at < MOST_SEEDS_KEPT ? &shelf->kept[at] : NULL;
}

static void keep(struct shelf *shelf, const char *kind, const struct input *input)
{
    struct kept like = {.kind = kind, .call = call_of(input), .code = check_input(input, NULL, 0).answer.code};
    struct kept *kept = place_for(shelf, &like);
    struct buffer bytes = {0};
    input_write(input, &bytes);
    if (kept != NULL && (kept->bytes.length == 0 || bytes.length < kept->bytes.length)) {
        buffer_free(&kept->bytes);
        kept->bytes = bytes;
    } else {
        buffer_free(&bytes);
    }
}

/* ---- cases */

/* Every fourth case with other areas. */
static void vary_lengths(struct input *input, uint64_t seed)
{
    static const uint8_t bytes[] = {1, 2, 3, 60, 128};
    if (seed % 4 != 0)
        return;
    uint8_t byte = bytes[seed / 16 % sizeof bytes];
    input->work = seed / 4 % 4 == 0 ? byte : 0;
    input->out = seed / 4 % 4 == 1 ? byte : 0;
    input->answer = seed / 4 % 4 == 2 ? byte : 0;
}

static void keep_small(struct shelf *shelf, const char *kind, struct input *input, uint64_t seed)
{
    vary_lengths(input, seed);
    if (input->file[CELL].length + input->file[UPDATE].length <= SMALL)
        keep(shelf, kind, input);
}

static void keep_shown(struct shelf *shelf, uint64_t seed)
{
    struct random random = {seed};
    struct show_case made = show_case_make(seed);
    struct name name = ask_name(&made, (enum asked)(seed % ASKED), &random);
    struct input input = {.call = SHOW, .class = name.class, .id = name.id, .file = {made.cell, made.update}};
    keep_small(shelf, asked_kind(seed % ASKED), &input, seed);
    show_case_free(&made);
}

/* A cell alone goes to Judge and Admit in turn, one with an update to Apply. */
static void keep_read(struct shelf *shelf, uint64_t seed)
{
    struct read_case made = read_case_make(seed);
    struct input input = {.call = made.both ? APPLY : seed / 8 % 2 == 0 ? JUDGE : ADMIT, .file = {made.cell, made.update}};
    if (!made.both)
        input.file[UPDATE].length = 0;
    keep_small(shelf, made.kind, &input, seed);
    read_case_free(&made);
}

static void keep_cases(struct shelf *shelf, uint64_t seed)
{
    struct judge_case judged = judge_case_make(seed);
    struct admit_case admitted = admit_case_make(seed);
    struct apply_case applied = apply_case_make(seed);
    struct input judge = {.call = JUDGE, .file = {judged.cell, {0}}}, admit = {.call = ADMIT, .file = {admitted.cell, {0}}};
    struct input apply = {.call = APPLY, .file = {applied.cell, applied.update}};
    keep_small(shelf, judged.kind, &judge, seed);
    keep_small(shelf, admitted.kind, &admit, seed);
    keep_small(shelf, applied.kind, &apply, seed);
    keep_shown(shelf, seed);
    keep_read(shelf, seed);
    buffer_free(&judged.cell);
    admit_case_free(&admitted);
    apply_case_free(&applied);
}

/* ---- large files in few bytes */

/* Puts a stretch in the place of what it brings. */
static void fold(struct input *input, enum file file, struct stretch stretch)
{
    buffer_remove(&input->file[file], stretch.at + stretch.length, (size_t)stretch.times * stretch.length);
    stretch.at |= file == UPDATE ? STRETCHES_UPDATE : 0;
    input->stretch[input->stretches++] = stretch;
}

/* The longest run of one byte. */
static struct stretch longest_run(const struct buffer *file)
{
    struct stretch longest = {.length = 1, .rising = NOT_RISING};
    for (size_t at = 0, end = 0; at < file->length; at = end) {
        while (end < file->length && file->bytes[end] == file->bytes[at])
            end++;
        if (end - at - 1 > longest.times)
            longest = (struct stretch){(uint32_t)at, 1, (uint32_t)(end - at - 1), NOT_RISING};
    }
    return longest;
}

/* Whether the record at `next` is the one before it but for its id, which is one more. The id of a vector stands behind 0001's three bytes and the class. */
static bool rises(const struct buffer *file, const struct record *before, const struct record *next, size_t id)
{
    const uint8_t *first = file->bytes + before->start, *second = file->bytes + next->start;
    size_t length = before->end - before->start;
    return next->end - next->start == length && memcmp(first, second, id) == 0 && memcmp(first + id + 4, second + id + 4, length - id - 4) == 0 &&
           get_number(second + id, 4) == get_number(first + id, 4) + 1;
}

/* The vectors from the first one on, as far as they rise. */
static struct stretch rising_vectors(const struct buffer *file)
{
    enum { HEADER = 3, BEFORE_ID = 3 + 1 };
    struct record first = reader_record(file->bytes, 0), next;
    for (unsigned i = 0; i < HEADER; i++)
        first = reader_record(file->bytes, first.end);
    size_t id = first.fields - first.start + BEFORE_ID;
    struct stretch stretch = {(uint32_t)first.start, (uint32_t)(first.end - first.start), 0, (uint32_t)id};
    for (struct record before = first; before.end < file->length; before = next) {
        next = reader_record(file->bytes, before.end);
        if (!rises(file, &before, &next, id))
            break;
        stretch.times++;
    }
    return stretch;
}

static struct buffer write_brief(struct chart *chart, struct random *random)
{
    size_t records = 0;
    describe_briefly(chart, random);
    if (!chart->update)
        count_records(chart);
    return write_file(chart, true, random, &records);
}

static struct chart_record *put_node(struct chart *chart, uint32_t id)
{
    struct chart_record *record = put_vector(chart, 120, id);
    set_number(record->field[0].content.bytes, 2, 1);
    put_number(&add_field(record, "SG2D")->content, 8, 0);
    return record;
}

/* Any call on a cell, or an update, of one byte too many. */
static void keep_long(struct shelf *shelf, struct random *random)
{
    for (enum call call = 0; call < CALLS; call++)
        for (enum file file = CELL; file < (call == APPLY || call == SHOW ? FILES : UPDATE); file++) {
            struct chart cell = bare_cell(random);
            struct input input = {.call = (uint8_t)call, .stretches = 1, .file = {write_brief(&cell, random), {0}}};
            size_t length = file == UPDATE ? 1 : input.file[CELL].length;
            if (file == UPDATE)
                *buffer_more(&input.file[UPDATE], 1) = '0';
            input.stretch[0] = (struct stretch){file == UPDATE ? STRETCHES_UPDATE : 0, 1, (uint32_t)(5242881 - length), NOT_RISING};
            keep(shelf, file == UPDATE ? "an update of 5,242,881 bytes" : "a cell of 5,242,881 bytes", &input);
            input_free(&input);
            chart_free(&cell);
        }
}

/* A cell of that many records. */
static void keep_many(struct shelf *shelf, const char *kind, size_t records, struct random *random)
{
    struct chart cell = bare_cell(random);
    struct input input = {.call = ADMIT};
    while (cell.list.count < records)
        put_node(&cell, (uint32_t)cell.list.count);
    input.file[CELL] = write_brief(&cell, random);
    fold(&input, CELL, rising_vectors(&input.file[CELL]));
    keep(shelf, kind, &input);
    input_free(&input);
    chart_free(&cell);
}

static void put_long_text(struct chart_record *record, uint32_t label, size_t length)
{
    struct chart_field *field = insert_field(record, 2, "ATTV");
    put_number(&field->content, 2, label);
    put_text(&field->content, "");
    lengthen_text(field, length);
}

/* A node with a text that gets another one. */
static void keep_grown(struct shelf *shelf, const char *kind, size_t length, struct random *random)
{
    const struct numbering next = {.edition = 1, .number = 1, .date = "20240229"};
    struct chart cell = bare_cell(random);
    number_before(&cell, &next, random);
    struct chart_record *node = put_node(&cell, 1);
    put_long_text(node, 1, length);
    struct chart update = start_update(&cell, &next, random);
    put_long_text(say_change(&update, node, 2, MODIFY, random), 2, length);
    struct input input = {.call = APPLY, .file = {write_brief(&cell, random), write_brief(&update, random)}};
    for (enum file file = 0; file < FILES; file++)
        fold(&input, file, longest_run(&input.file[file]));
    keep(shelf, kind, &input);
    input_free(&input);
    chart_free(&cell);
    chart_free(&update);
}

/* ---- all */

static bool save(const struct kept *kept, const char *folder, size_t index)
{
    char path[4096];
    snprintf(path, sizeof path, "%s/%s-%02u-%04zu", folder, call_name(kept->call), (unsigned)kept->code, index);
    return buffer_save(&kept->bytes, path);
}

int main(int words, char **word)
{
    static struct shelf shelf;
    struct random random = {1};
    bool saved = words > 1;
    uint64_t seeds = words > 2 ? strtoull(word[2], NULL, 10) : DEFAULT_SEEDS;
    for (uint64_t seed = 0; saved && seed < seeds; seed++)
        keep_cases(&shelf, seed);
    keep_long(&shelf, &random);
    keep_many(&shelf, "65,536 records", 65536, &random);
    keep_many(&shelf, "65,537 records", 65537, &random);
    keep_grown(&shelf, "a record of 60,000 bytes", 30000, &random);
    keep_grown(&shelf, "a record of 120,000 bytes", 60000, &random);
    for (size_t i = 0; i < shelf.count; i++) {
        saved = saved && save(&shelf.kept[i], word[1], i);
        buffer_free(&shelf.kept[i].bytes);
    }
    if (!saved)
        fprintf(stderr, "usage: seeds FOLDER [SEEDS]\n");
    else
        printf("%zu inputs\n", shelf.count);
    return saved ? 0 : 2;
}
