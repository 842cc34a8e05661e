#include "speed.h"

#include <inttypes.h>
#include <stdio.h>
#include <stdlib.h>
#include <string.h>
#include <time.h>

enum { SIDES = 3 };

/* Processor time, so that what else the machine does isn't counted. */
static double now(void)
{
    return (double)clock() * (1e9 / CLOCKS_PER_SEC);
}

static double once(timed *perform, void *context, unsigned calls, uint64_t *answer)
{
    double start = now();
    for (unsigned i = 0; i < calls; i++)
        *answer = perform(context);
    return (now() - start) / calls;
}

/* As many calls as take about a millisecond, so that a short one is measured too. */
static unsigned choose_calls(timed *perform, void *context)
{
    uint64_t answer = 0;
    double time = once(perform, context, 1, &answer);
    return time > 1e6 ? 1 : (unsigned)(1e6 / (time + 1)) + 1;
}

struct times measure(timed *perform, struct sides sides, size_t bytes, unsigned rounds)
{
    void *const side[SIDES] = {sides.proved, sides.plain, sides.tuned};
    const size_t count = sides.tuned != NULL ? SIDES : SIDES - 1;
    double best[SIDES] = {1e30, 1e30, 1e30};
    unsigned calls = choose_calls(perform, sides.plain);
    for (unsigned round = 0; round < rounds; round++) {
        uint64_t answer[SIDES] = {0};
        for (size_t i = 0; i < count; i++) {
            double time = once(perform, side[i], calls, &answer[i]);
            best[i] = time < best[i] ? time : best[i];
            if (answer[i] != answer[0]) {
                fprintf(stderr, "two answers differ: %" PRIu64 ", %" PRIu64 "\n", answer[0], answer[i]);
                exit(1);
            }
        }
    }
    return (struct times){best[0] / (double)bytes, best[1] / (double)bytes, best[2] / (double)bytes};
}

struct wish wish_of(int words, char **word, unsigned rounds)
{
    struct wish wish = {rounds, false};
    for (int i = 1; i < words; i++)
        if (strcmp(word[i], "--csv") == 0)
            wish.csv = true;
        else
            wish.rounds = (unsigned)strtoul(word[i], NULL, 10);
    return wish;
}

const char times_head[] = "| proved, ns a byte | plain C, ns a byte | tuned C, ns a byte | proved / plain | proved / tuned | proved / proved ordinary |";
const char times_rule[] = "|---:|---:|---:|---:|---:|---:|";

void print_times(const struct times *times, double ordinary)
{
    printf("| %.4f | %.4f | %.4f | %.2f | %.2f | %.2f |", times->proved, times->plain, times->tuned, times->proved / times->plain,
           times->proved / times->tuned, times->proved / ordinary);
}

void print_csv(const char *call, const char *row, const struct times *times)
{
    printf("\"%s\",\"%s\",%.6f,%.6f,%.6f\n", call, row, times->proved, times->plain, times->tuned);
}
