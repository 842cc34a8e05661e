/* Replays inputs of the fuzzer, such as are kept in bench/fuzz/corpus: each through the plain reader, the tuned one and the proved archive. With --all every
   code that a call can give must come up.
   usage: replay [--all] INPUT.. */
#include "../../host/s57loader.h"
#include "../probe.h"
#include "../tests/areas.h"
#include "../tests/tally.h"
#include "check.h"

#include <stdio.h>
#include <string.h>

static const struct side proved_side = {"the proved archive", {s57_judge, s57_admit, s57_apply}, {probe_show}};

/* Counted by call and code. */
static uint64_t met[CALLS][CODE_ABSENT + 1];

static void replay(struct tally *tally, const char *path)
{
    const struct side sides[] = {proved_side, tuned_side};
    struct buffer bytes = {0};
    if (!buffer_load(&bytes, path)) {
        printf("FAILED: %s can't be read\n", path);
        tally->failed++;
        return;
    }
    struct input input = input_read(bytes.bytes, bytes.length);
    struct checked checked = check_input(&input, sides, sizeof sides / sizeof sides[0]);
    if (checked.wrong != NULL)
        printf("DIFFERS: %s, %s; %s, code %u, %s\n", checked.side, checked.wrong, call_name(call_of(&input)), (unsigned)checked.answer.code, path);
    tally_add(tally, call_name(call_of(&input)), checked.answer.code, checked.wrong == NULL);
    met[call_of(&input)][checked.answer.code <= CODE_ABSENT ? checked.answer.code : CODE_ABSENT]++;
    input_free(&input);
    buffer_free(&bytes);
}

/* Document 01's codes of a call. */
static bool can_give(enum call call, uint32_t code)
{
    if (code <= CODE_COUNTS)
        return true;
    if (call == SHOW || code == CODE_ABSENT)
        return call == SHOW && code == CODE_ABSENT;
    if (call == APPLY)
        return true;
    return code >= CODE_SHAPE && (code <= CODE_RING || call == ADMIT);
}

static void demand_codes(struct tally *tally)
{
    for (enum call call = 0; call < CALLS; call++)
        for (uint32_t code = 0; code <= CODE_ABSENT; code++) {
            if (!can_give(call, code))
                continue;
            if (met[call][code] == 0)
                printf("FAILED: no input makes %s give %u\n", call_name(call), (unsigned)code);
            tally_add(tally, "codes that came up", code, met[call][code] > 0);
        }
}

int main(int words, char **word)
{
    static struct tally tally;
    bool all = words > 1 && strcmp(word[1], "--all") == 0;
    keep_memory();
    for (enum call call = 0; call < CALLS; call++)
        tally_list(&tally, call_name(call));
    for (int i = all ? 2 : 1; i < words; i++)
        replay(&tally, word[i]);
    if (all)
        demand_codes(&tally);
    return tally_close(&tally);
}
