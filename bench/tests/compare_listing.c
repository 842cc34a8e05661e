/* The host test of the listing program: generated cells through the program, as a process with the cell as its standard input, and through the
   C reader. What the program prints must be the C reader's listing byte for byte.
   usage: compare_listing [SEEDS [FIRST_SEED]] -- COMMAND [WORDS..]   the command starts the program */
#define _POSIX_C_SOURCE 200809L

#include "../generators/generate_listing.h"
#include "../reader/reader.h"
#include "areas.h"
#include "runner.h"

#include <fcntl.h>
#include <inttypes.h>
#include <spawn.h>
#include <stdio.h>
#include <stdlib.h>
#include <string.h>
#include <sys/socket.h>
#include <sys/wait.h>
#include <unistd.h>

enum { LONGEST_PIECE = 4000 };

extern char **environ;

static void give_up(const char *what)
{
    fprintf(stderr, "compare_listing: %s\n", what);
    exit(2);
}

/* ---- the program as a process. Its output goes to a file, so that it never waits for this one while this one waits for it. */

struct program {
    char **command;
    int input, output; /* nameless files */
};

static int nameless_file(void)
{
    FILE *file = tmpfile();
    int number = file != NULL ? dup(fileno(file)) : -1;
    if (number < 0 || fcntl(number, F_SETFD, FD_CLOEXEC) < 0 || fclose(file) != 0)
        give_up("no temporary file");
    return number;
}

static void rewind_file(int file)
{
    if (lseek(file, 0, SEEK_SET) != 0)
        give_up("a temporary file can't be read again");
}

static pid_t start(const struct program *program, int input)
{
    pid_t child;
    posix_spawn_file_actions_t actions;
    if (ftruncate(program->output, 0) != 0 || posix_spawn_file_actions_init(&actions) != 0)
        give_up("no room for a process");
    rewind_file(program->output);
    if (posix_spawn_file_actions_adddup2(&actions, input, STDIN_FILENO) != 0 ||
        posix_spawn_file_actions_adddup2(&actions, program->output, STDOUT_FILENO) != 0)
        give_up("no room for a process");
    if (posix_spawnp(&child, program->command[0], &actions, NULL, program->command, environ) != 0)
        give_up("the command can't be started");
    posix_spawn_file_actions_destroy(&actions);
    return child;
}

static pid_t start_on_file(const struct program *program, const struct buffer *cell)
{
    rewind_file(program->input);
    if (ftruncate(program->input, 0) != 0)
        give_up("a temporary file can't be emptied");
    for (size_t done = 0; done < cell->length;) {
        ssize_t put = write(program->input, cell->bytes + done, cell->length - done);
        if (put <= 0)
            give_up("a temporary file can't be written");
        done += (size_t)put;
    }
    rewind_file(program->input);
    return start(program, program->input);
}

/* Each read gets one piece, however much it asks for. A program may end before it took all: of a cell too long it needn't. */
static pid_t start_on_pieces(const struct program *program, const struct buffer *cell, struct random *random)
{
    int ends[2];
    if (socketpair(AF_UNIX, SOCK_SEQPACKET, 0, ends) != 0 || fcntl(ends[0], F_SETFD, FD_CLOEXEC) < 0 || fcntl(ends[1], F_SETFD, FD_CLOEXEC) < 0)
        give_up("no socket");
    pid_t child = start(program, ends[0]);
    close(ends[0]);
    for (size_t done = 0; done < cell->length;) {
        size_t left = cell->length - done, piece = random_between(random, 1, LONGEST_PIECE);
        ssize_t put = send(ends[1], cell->bytes + done, piece < left ? piece : left, MSG_NOSIGNAL);
        if (put <= 0)
            break;
        done += (size_t)put;
    }
    close(ends[1]);
    return child;
}

/* What the program printed; false where it didn't end well. */
static bool finish(const struct program *program, pid_t child, struct buffer *printed)
{
    enum { STEP = 65536 };
    int status;
    if (waitpid(child, &status, 0) != child)
        give_up("the program was lost");
    rewind_file(program->output);
    for (ssize_t got = 1; got > 0;) {
        got = read(program->output, buffer_more(printed, STEP), STEP);
        printed->length -= got > 0 ? STEP - (size_t)got : STEP;
    }
    return WIFEXITED(status) && WEXITSTATUS(status) == 0;
}

/* ---- one case */

static bool same_bytes(const struct buffer *left, const void *bytes, size_t length)
{
    return left->length == length && (length == 0 || memcmp(left->bytes, bytes, length) == 0);
}

static bool as_known(const struct listing_case *made, const struct answer *answer, const struct buffer *listing)
{
    const struct answer *known = &made->verdict;
    if (made->known && (known->code != answer->code || known->file != answer->file || known->record != answer->record))
        return false;
    return made->text == NULL || same_bytes(listing, made->text, strlen(made->text));
}

/* The line that has the first byte in which the two differ. */
static void print_line(const char *who, const struct buffer *text, size_t differs)
{
    size_t start = differs < text->length ? differs : text->length, end = start;
    while (start > 0 && text->bytes[start - 1] != '\n')
        start--;
    while (end < text->length && text->bytes[end] != '\n')
        end++;
    printf("    %s, %zu bytes, at %zu: '%.*s'\n", who, text->length, start, (int)(end - start), (const char *)text->bytes + start);
}

static void report(const struct listing_case *made, uint64_t seed, const char *wrong, const struct buffer *listing, const struct buffer *printed)
{
    size_t differs = 0;
    while (differs < listing->length && differs < printed->length && listing->bytes[differs] == printed->bytes[differs])
        differs++;
    printf("DIFFERS: %s; kind '%s', seed %" PRIu64 ", cell of %zu bytes\n", wrong, made->kind, seed, made->cell.length);
    print_line("the C reader", listing, differs);
    print_line("the program", printed, differs);
}

/* The input is a file, or comes in pieces. */
static void run_case(struct tally *tally, const struct program *program, const struct listing_case *made, uint64_t seed, bool pieces)
{
    struct random random = {seed};
    struct buffer listing = {0}, printed = {0};
    uint8_t *cell = exact_copy(&made->cell);
    struct answer answer = reader_listing(cell, made->cell.length, &listing);
    pid_t child = pieces ? start_on_pieces(program, &made->cell, &random) : start_on_file(program, &made->cell);
    const char *wrong = NULL;
    if (!finish(program, child, &printed))
        wrong = "the program's end";
    else if (!as_known(made, &answer, &listing))
        wrong = "the C reader and the generator";
    else if (!same_bytes(&printed, listing.bytes, listing.length))
        wrong = pieces ? "the listing, of a cell in pieces" : "the listing";
    if (wrong != NULL)
        report(made, seed, wrong, &listing, &printed);
    tally_add(tally, made->kind, answer.code, wrong == NULL);
    free(cell);
    buffer_free(&listing);
    buffer_free(&printed);
}

/* ---- all cases */

static void run_seed(struct tally *tally, const void *program, uint64_t seed)
{
    struct listing_case made = listing_case_make(seed);
    run_case(tally, program, &made, seed, seed / 16 % 2 == 1);
    buffer_free(&made.cell);
}

static void run_limit(struct tally *tally, const void *program, size_t index)
{
    struct listing_case made = limit_cell_make(index);
    run_case(tally, program, &made, index, false);
    run_case(tally, program, &made, index, true);
    buffer_free(&made.cell);
}

int main(int words, char **word)
{
    static const struct test test = {
        .seeds = 800,
        .kinds = {{listing_kinds, listing_kind}, {limit_cells, limit_cell_name}},
        .run_seed = run_seed,
        .large_cases = limit_cells,
        .run_large = run_limit,
    };
    int marks = 1;
    while (marks < words && strcmp(word[marks], "--") != 0)
        marks++;
    if (marks > 3 || marks + 1 >= words)
        give_up("usage: compare_listing [SEEDS [FIRST_SEED]] -- COMMAND [WORDS..]");
    struct program program = {word + marks + 1, nameless_file(), nameless_file()};
    int status = run_test(&test, &program, marks, word);
    close(program.input);
    close(program.output);
    return status;
}
