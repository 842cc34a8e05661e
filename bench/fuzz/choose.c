/* Chooses few and small inputs that go wherever all of them go: to each place in the plain reader, to each answer of each call, and to each block of the proved
   code that FUZZ_BLOCKS in the environment lists, or that has a flag on Arm. The reader is compiled so that it counts its places (clang's
   -fsanitize-coverage=inline-8bit-counters). From those chosen, parts that aren't needed for that are taken out.
   usage: choose FOLDER INPUT.. */
#include "../../host/s57loader.h"
#include "../probe.h"
#include "check.h"
#include "less.h"
#include "watch.h"

#include <stdio.h>
#include <stdlib.h>
#include <string.h>

enum { ANSWERS = CALLS * (CODE_ABSENT + 1) * 4 };

/* ---- places: the compiler's code calls this at the start, for each file's counters; they lie in one row */

static uint8_t *first_counter, *last_counter;

void __sanitizer_cov_8bit_counters_init(uint8_t *first, uint8_t *last);

void __sanitizer_cov_8bit_counters_init(uint8_t *first, uint8_t *last)
{
    first_counter = first_counter == NULL || first < first_counter ? first : first_counter;
    last_counter = last_counter == NULL || last > last_counter ? last : last_counter;
}

static uint8_t met[MOST_BLOCKS];

/* Those that are quickly found, and all: the blocks come behind them. */
static size_t quick_features(void)
{
    return (size_t)(last_counter - first_counter) + ANSWERS;
}

static size_t features(void)
{
    return quick_features() + watched_blocks();
}

/* One byte a feature: 1 where the input has it. */
static void look_quickly(const struct input *input, uint8_t *has)
{
    size_t places = (size_t)(last_counter - first_counter);
    memset(first_counter, 0, places);
    struct answer answer = check_input(input, NULL, 0).answer;
    for (size_t i = 0; i < places; i++)
        has[i] = first_counter[i] > 0;
    memset(has + places, 0, ANSWERS);
    has[places + (call_of(input) * (CODE_ABSENT + 1) + answer.code) * 4 + answer.file] = 1;
}

static void look(const struct input *input, uint8_t *has)
{
    const struct side proved = {"the proved archive", {s57_judge, s57_admit, s57_apply}, {probe_show}};
    look_quickly(input, has);
    memset(met, 0, sizeof met);
    watch_again();
    check_input(input, &proved, 1);
    watch_look();
    memcpy(has + quick_features(), met, watched_blocks());
}

/* ---- choosing */

struct candidate {
    struct buffer bytes;
    uint8_t *has;
    bool chosen;
};

static size_t fresh(const struct candidate *candidate, const uint8_t *covered)
{
    size_t count = 0;
    for (size_t i = 0; i < features(); i++)
        count += candidate->has[i] > 0 && covered[i] == 0;
    return count;
}

/* The one that brings most for its bytes; null where none brings anything. */
static struct candidate *best(struct candidate *candidates, size_t count, const uint8_t *covered)
{
    struct candidate *found = NULL;
    size_t most = 0;
    for (size_t i = 0; i < count; i++) {
        struct candidate *candidate = &candidates[i];
        size_t brings = candidate->chosen ? 0 : fresh(candidate, covered);
        if (brings > 0 && (found == NULL || brings * found->bytes.length > most * candidate->bytes.length)) {
            found = candidate;
            most = brings;
        }
    }
    return found;
}

/* `covered` counts how many of those chosen have each feature. */
static void choose(struct candidate *candidates, size_t count, uint32_t *covered)
{
    uint8_t *any = grow(NULL, features(), 1);
    memset(any, 0, features());
    for (struct candidate *next = best(candidates, count, any); next != NULL; next = best(candidates, count, any)) {
        next->chosen = true;
        for (size_t i = 0; i < features(); i++) {
            any[i] |= next->has[i];
            covered[i] += next->has[i];
        }
    }
    free(any);
}

/* ---- less of each */

/* Whether it still has all that only it brings, of the first so many features. */
static bool suffices(const struct candidate *candidate, const uint8_t *has, const uint32_t *covered, size_t count)
{
    for (size_t i = 0; i < count; i++)
        if (candidate->has[i] > 0 && covered[i] == 1 && has[i] == 0)
            return false;
    return true;
}

static void replace(struct candidate *candidate, const struct input *input, uint8_t *has, uint32_t *covered)
{
    for (size_t i = 0; i < features(); i++)
        covered[i] += (uint32_t)has[i] - candidate->has[i];
    memcpy(candidate->has, has, features());
    candidate->bytes.length = 0;
    input_write(input, &candidate->bytes);
}

/* Tries to do without a part; false where there is none of that index. */
static bool try_without(struct candidate *candidate, enum file file, size_t *index, uint32_t *covered)
{
    struct input input = input_read(candidate->bytes.bytes, candidate->bytes.length);
    uint8_t *has = grow(NULL, features(), 1);
    size_t before = input.file[file].length;
    bool there = drop_part(&input, file, *index), less = false;
    if (there && input.file[file].length < before) {
        look_quickly(&input, has);
        less = suffices(candidate, has, covered, quick_features());
    }
    if (less) {
        look(&input, has);
        less = suffices(candidate, has, covered, features());
    }
    if (less)
        replace(candidate, &input, has, covered);
    else
        ++*index;
    free(has);
    input_free(&input);
    return there;
}

static void lessen(struct candidate *candidate, uint32_t *covered)
{
    for (enum file file = 0; file < FILES; file++)
        for (size_t index = 0; try_without(candidate, file, &index, covered);)
            continue;
}

/* Whether all that it brings others bring too. */
static bool needless(const struct candidate *candidate, const uint32_t *covered)
{
    for (size_t i = 0; i < features(); i++)
        if (candidate->has[i] > 0 && covered[i] == 1)
            return false;
    return true;
}

static void drop(struct candidate *candidate, uint32_t *covered)
{
    candidate->chosen = false;
    for (size_t i = 0; i < features(); i++)
        covered[i] -= candidate->has[i];
}

/* ---- all */

/* The name is a number over the bytes (FNV-1a), behind the call and the code. */
static bool save(const struct candidate *candidate, const char *folder)
{
    char path[4096];
    uint64_t name = UINT64_C(0xCBF29CE484222325);
    struct input input = input_read(candidate->bytes.bytes, candidate->bytes.length);
    for (size_t i = 0; i < candidate->bytes.length; i++)
        name = (name ^ candidate->bytes.bytes[i]) * UINT64_C(0x100000001B3);
    snprintf(path, sizeof path, "%s/%s-%02u-%08x", folder, call_name(call_of(&input)), (unsigned)check_input(&input, NULL, 0).answer.code,
             (unsigned)(name >> 32));
    input_free(&input);
    return buffer_save(&candidate->bytes, path);
}

static void load(struct candidate *candidate, const char *path)
{
    buffer_load(&candidate->bytes, path);
    struct input input = input_read(candidate->bytes.bytes, candidate->bytes.length);
    candidate->has = grow(NULL, features(), 1);
    look(&input, candidate->has);
    input_free(&input);
}

/* How many of these features all inputs together have. */
static size_t met_of(const uint32_t *covered, size_t from, size_t to)
{
    size_t count = 0;
    for (size_t i = from; i < to; i++)
        count += covered[i] > 0;
    return count;
}

int main(int words, char **word)
{
    size_t count = words > 2 ? (size_t)words - 2 : 0, kept = 0, bytes = 0;
    const char *list = getenv("FUZZ_BLOCKS");
    if (list != NULL && !watch_open(list, met))
        return 2;
    struct candidate *candidates = grow(NULL, count + 1, sizeof candidates[0]);
    uint32_t *covered = grow(NULL, features(), sizeof covered[0]);
    bool saved = true;
    memset(candidates, 0, (count + 1) * sizeof candidates[0]);
    memset(covered, 0, features() * sizeof covered[0]);
    for (size_t i = 0; i < count; i++)
        load(&candidates[i], word[i + 2]);
    choose(candidates, count, covered);
    /* twice: what one does without, another may have then */
    for (size_t i = 0; i < 2 * count; i++)
        if (candidates[i % count].chosen && needless(&candidates[i % count], covered))
            drop(&candidates[i % count], covered);
        else if (candidates[i % count].chosen)
            lessen(&candidates[i % count], covered);
    for (size_t i = 0; i < count; i++)
        if (candidates[i].chosen) {
            saved = saved && save(&candidates[i], word[1]);
            kept++;
            bytes += candidates[i].bytes.length;
        }
    printf("%zu of %zu inputs chosen, %zu bytes\n", kept, count, bytes);
    printf("%zu of %zu blocks of the proved code\n", met_of(covered, quick_features(), features()), watched_blocks());
    return saved && count > 0 ? 0 : 1;
}
