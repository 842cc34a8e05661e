#include "tally.h"

#include <inttypes.h>
#include <stdio.h>
#include <string.h>

static size_t row_of(struct tally *tally, const char *kind)
{
    size_t row = 0;
    while (row < tally->kinds && strcmp(tally->kind[row], kind) != 0)
        row++;
    if (row == tally->kinds && row < MOST_KINDS)
        tally->kind[tally->kinds++] = kind;
    return row < MOST_KINDS ? row : MOST_KINDS - 1;
}

void tally_list(struct tally *tally, const char *kind)
{
    row_of(tally, kind);
}

void tally_add(struct tally *tally, const char *kind, uint32_t code, bool passed)
{
    tally->codes[row_of(tally, kind)][code < MOST_CODES ? code : MOST_CODES - 1]++;
    tally->passed += passed;
    tally->failed += !passed;
}

/* Only codes that came up have a column. */
static bool came_up(const struct tally *tally, size_t code)
{
    for (size_t row = 0; row < tally->kinds; row++)
        if (tally->codes[row][code] > 0)
            return true;
    return false;
}

static int width_of(const struct tally *tally)
{
    return tally->columns != NULL ? 12 : 6;
}

static void print_head(const struct tally *tally)
{
    printf("%-52s", tally->columns != NULL ? "kind, and cases" : "kind, and cases by code");
    for (size_t code = 0; code < MOST_CODES; code++)
        if (came_up(tally, code) && tally->columns != NULL)
            printf(" %*s", width_of(tally), tally->columns[code]);
        else if (came_up(tally, code))
            printf(" %*zu", width_of(tally), code);
    printf("\n");
}

static void print_row(const struct tally *tally, const char *kind, const uint64_t *codes)
{
    printf("%-52s", kind);
    for (size_t code = 0; code < MOST_CODES; code++)
        if (came_up(tally, code))
            printf(" %*" PRIu64, width_of(tally), codes[code]);
    printf("\n");
}

int tally_close(const struct tally *tally)
{
    uint64_t sum[MOST_CODES] = {0};
    print_head(tally);
    for (size_t row = 0; row < tally->kinds; row++) {
        print_row(tally, tally->kind[row], tally->codes[row]);
        for (size_t code = 0; code < MOST_CODES; code++)
            sum[code] += tally->codes[row][code];
    }
    print_row(tally, "all", sum);
    printf("%" PRIu64 " passed, %" PRIu64 " failed\n", tally->passed, tally->failed);
    return tally->failed > 0;
}
