#include "boundary.h"

#include "../../host/s57loader.h"

#include <stdio.h>
#include <string.h>

/* ---- areas */

struct lent lend(size_t length, size_t shift, uint8_t fill, uint8_t beside)
{
    struct lent lent = {lent_area(shift + length) + shift, length, shift, beside};
    memset(lent.at - shift - GUARD, beside, GUARD + shift + length + GUARD);
    memset(lent.at, fill, length);
    return lent;
}

struct lent lend_file(const struct buffer *file, size_t shift, uint8_t beside)
{
    struct lent lent = lend(file->length, shift, 0, beside);
    if (file->length > 0)
        memcpy(lent.at, file->bytes, file->length);
    return lent;
}

void give_back(const struct lent *lent)
{
    lent_free(lent->at - lent->shift);
}

bool beside_kept(const struct lent *lent)
{
    return all_are(lent->at - lent->shift - GUARD, GUARD + lent->shift, lent->beside) && all_are(lent->at + lent->length, GUARD, lent->beside);
}

bool file_kept(const struct lent *lent, const struct buffer *file)
{
    return beside_kept(lent) && (file->length == 0 || memcmp(lent->at, file->bytes, file->length) == 0);
}

uint8_t *pointer_to(const struct lent *lent, bool nowhere)
{
    return nowhere && lent->length == 0 ? (uint8_t *)(uintptr_t)1 : lent->at;
}

uint8_t fill_of(size_t number)
{
    static const uint8_t fills[] = {PATTERN, 0x00, 0xFF, '0', 0x1E};
    return fills[number % sizeof fills];
}

/* ---- lengths */

size_t work_length(enum work work, size_t records, size_t cell_length)
{
    size_t needed = S57_WORK_A_RECORD * records;
    switch (work) {
    case NO_WORK:
        return 0;
    case SHORT:
        return needed > 0 ? needed - 1 : 0;
    case EXACT:
        return needed;
    case ONE_MORE:
        return needed + 1;
    case MANY_MORE:
        return needed + 4096;
    default:
        return S57_WORK_FOR(cell_length);
    }
}

const char *const output_names[OUTPUTS] = {"no output",       "output one byte short",   "output just enough",
                                           "output one over", "output 4,096 bytes over", "output of S57_LONGEST"};

size_t output_length(enum output output, size_t needed)
{
    switch (output) {
    case OUTPUT_NONE:
        return 0;
    case OUTPUT_SHORT:
        return needed > 0 ? needed - 1 : 0;
    case OUTPUT_EXACT:
        return needed;
    case OUTPUT_ONE_MORE:
        return needed + 1;
    case OUTPUT_MANY_MORE:
        return needed + 4096;
    default:
        return S57_LONGEST;
    }
}

const size_t answer_lengths[ANSWERS] = {0, S57_ANSWER - 1, S57_ANSWER, S57_ANSWER + 1};
const char *const answer_names[ANSWERS] = {"answer of 0 bytes", "answer of 15 bytes", "answer of 16 bytes", "answer of 17 bytes"};

size_t answer_of(size_t round)
{
    return answer_lengths[(round + round / ANSWERS) % ANSWERS];
}

/* ---- all calls */

enum { MOST_OTHERS = OUTPUTS };

static void run_row(struct tally *tally, const struct boundary *boundary, enum work work, size_t other)
{
    static const char *const work_names[WORKS] = {"no work area",       "work one byte short",   "work just enough",
                                                  "work one byte over", "work 4,096 bytes over", "work by S57_WORK_FOR"};
    static char names[WORKS][MOST_OTHERS][64];
    char *row = names[work][other];
    snprintf(row, sizeof names[work][other], "%s, %s", work_names[work], boundary->other_names[other]);
    for (size_t round = 0; round < ROUNDS; round++)
        for (size_t file = 0; file < boundary->files; file++) {
            struct moment moment = {work, other, round, file};
            boundary->run_call(tally, row, boundary->context, &moment);
        }
}

void run_boundary(struct tally *tally, const struct boundary *boundary)
{
    for (enum work work = NO_WORK; work < WORKS; work++)
        for (size_t other = 0; other < boundary->others; other++)
            run_row(tally, boundary, work, other);
}
