/* What the fuzzer runs (libFuzzer): each input through the plain and the tuned reader, which are compiled so that it sees where they go, and through the
   proved archive, whose blocks are watched where FUZZ_BLOCKS in the environment names a list of them; on Arm through the proved modules, which are compiled as
   the readers are. Where a side differs the program ends, and the fuzzer keeps the input. bench/fuzz/run.sh builds and runs it. */
#include "../../host/s57loader.h"
#include "../probe.h"
#include "check.h"
#include "mutate.h"
#include "watch.h"

#include <stdio.h>
#include <stdlib.h>
#include <string.h>

/* Longer files take their time, and are left out where nobody asks for them: by FUZZ_LARGEST in the environment. */
enum { LARGEST = 262144 };

/* An answer that no input got before is worth keeping an input for, as a place in the code is: call, code, file, and the record as far as 7. libFuzzer looks
   into this section. Not static, since nobody here reads it. */
enum { ANSWER_FILES = 4, RECORDS = 8 };
__attribute__((section("__libfuzzer_extra_counters"))) uint8_t answered[CALLS][CODE_ABSENT + 1][ANSWER_FILES][RECORDS];

/* A block of the proved code that no input came to before is another. */
__attribute__((section("__libfuzzer_extra_counters"))) uint8_t met[MOST_BLOCKS];

size_t LLVMFuzzerMutate(uint8_t *bytes, size_t length, size_t most);
int LLVMFuzzerInitialize(int *words, char ***word);
int LLVMFuzzerTestOneInput(const uint8_t *bytes, size_t length);
size_t LLVMFuzzerCustomMutator(uint8_t *bytes, size_t length, size_t most, unsigned seed);
size_t LLVMFuzzerCustomCrossOver(const uint8_t *first, size_t first_length, const uint8_t *second, size_t second_length, uint8_t *to, size_t most,
                                 unsigned seed);

int LLVMFuzzerInitialize(int *words, char ***word)
{
    const char *list = getenv("FUZZ_BLOCKS");
    (void)words;
    (void)word;
    if (list != NULL && !watch_open(list, met))
        abort();
    return 0;
}

static size_t largest(void)
{
    const char *asked = getenv("FUZZ_LARGEST");
    return asked != NULL ? strtoul(asked, NULL, 10) : LARGEST;
}

static void note_answer(enum call call, const struct answer *answer)
{
    answered[call][answer->code % (CODE_ABSENT + 1)][answer->file % ANSWER_FILES][answer->record < RECORDS ? answer->record : RECORDS - 1] = 1;
}

int LLVMFuzzerTestOneInput(const uint8_t *bytes, size_t length)
{
    const struct side sides[] = {{"the proved archive", {s57_judge, s57_admit, s57_apply}, {probe_show}}, tuned_side};
    struct input input = input_read(bytes, length);
    struct checked checked = {0};
    if (stretched_length(&input) <= largest()) {
        checked = check_input(&input, sides, sizeof sides / sizeof sides[0]);
        note_answer(call_of(&input), &checked.answer);
    }
    if (checked.wrong != NULL) {
        fprintf(stderr, "DIFFERS: %s, %s; %s, code %u\n", checked.side, checked.wrong, call_name(call_of(&input)), (unsigned)checked.answer.code);
        abort();
    }
    input_free(&input);
    return 0;
}

/* The input as a string; an empty one where there is no room for it. */
static size_t write_to(const struct input *input, uint8_t *to, size_t most)
{
    struct buffer written = {0};
    input_write(input, &written);
    size_t length = written.length <= most ? written.length : 0;
    memcpy(to, written.bytes, length);
    buffer_free(&written);
    return length;
}

size_t LLVMFuzzerCustomMutator(uint8_t *bytes, size_t length, size_t most, unsigned seed)
{
    struct random random = {seed};
    struct input input = input_read(bytes, length);
    size_t written = change_input(&input, LLVMFuzzerMutate, &random) ? write_to(&input, bytes, most) : 0;
    input_free(&input);
    return written > 0 ? written : LLVMFuzzerMutate(bytes, length, most);
}

size_t LLVMFuzzerCustomCrossOver(const uint8_t *first, size_t first_length, const uint8_t *second, size_t second_length, uint8_t *to, size_t most,
                                 unsigned seed)
{
    struct random random = {seed};
    struct input input = input_read(first, first_length), other = input_read(second, second_length);
    cross_input(&input, &other, &random);
    size_t written = write_to(&input, to, most);
    input_free(&input);
    input_free(&other);
    return written;
}
