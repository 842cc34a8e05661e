/* An example host that keeps a chart up to date: a folder holds one cell's re-issue, as the file cell.000 (keep.h says how it is replaced).
   usage: unit admit BASE FOLDER
          unit offer UPDATE FOLDER
          unit follow FOLDER UPDATE..
          unit show FOLDER
   admit   takes a base cell: judges it and puts its re-issue into the folder, in place of what was there. The folder must be there.
   offer   works an update into the folder's chart, and puts the result's re-issue in its place.
   follow  offers updates in the order given, also those behind one that was refused; after each it says what the chart now shows.
   show    says what the chart shows: its name, edition, the number of its last update, and its dates. The chart is judged before; nothing is changed.
   The exit status is 0 where that was done, with all updates; 1 where the loader refused the base, an update or the folder's chart; 2 where a file or
   folder couldn't be read or written. follow goes on after an update that was refused; its status is then 1. It ends where the folder's chart is
   refused, or something couldn't be read or written. After 1 and 2 the folder holds the chart that it held before, with the updates that were said to be
   taken, but where the words on standard error say otherwise. */
#include "common.h"
#include "keep.h"
#include "shown.h"

#include <errno.h>
#include <stdio.h>
#include <string.h>

/* The name that it goes by: s57-unit where it is installed (build.sh). */
#ifndef OWN_NAME
#define OWN_NAME "unit"
#endif

/* All memory there is, lent to the loader. One byte more than a file may have: a longer file is told from the longest one without reading the rest. */
static uint8_t cell[S57_LONGEST + 1], update[S57_LONGEST + 1], out[S57_LONGEST], work[S57_WORK_BOTH], area[S57_ANSWER];

/* ---- the folder */

/* The folder, or -1 after saying why not. It is opened by keep_open, which locks it for this run, or by keep_look. */
static int open_folder(const char *path, int (*opens)(const char *path))
{
    int folder = opens(path);
    if (folder < 0 && errno == EWOULDBLOCK)
        fprintf(stderr, OWN_NAME ": %s is in use by another run of " OWN_NAME "; try again when that has ended\n", path);
    else if (folder < 0)
        fprintf(stderr, OWN_NAME ": %s can't be opened as a folder: %s\n", path, strerror(errno));
    return folder;
}

/* The folder's chart comes into `cell`. False after saying why not. */
static int fetch(int folder, const char *path, size_t *length)
{
    if (keep_read(folder, cell, sizeof cell, length))
        return 1;
    if (errno == ENOENT)
        fprintf(stderr, OWN_NAME ": %s has no chart; admit a base cell first\n", path);
    else
        fprintf(stderr, OWN_NAME ": the chart in %s can't be read: %s\n", path, strerror(errno));
    return 0;
}

/* The first bytes of `out` become the folder's chart. False after saying what went wrong. */
static int keep(int folder, const char *path, size_t length)
{
    enum keep_end end = keep_replace(folder, out, length);
    if (end == KEEP_OLD)
        fprintf(stderr, OWN_NAME ": the chart can't be written into %s: %s; what was there before stays\n", path, strerror(errno));
    if (end == KEEP_UNSURE)
        fprintf(stderr, OWN_NAME ": %s has the new chart, but it isn't sure to outlive a power cut: %s; look with " OWN_NAME " show after the next start\n", path,
                strerror(errno));
    return end == KEEP_NEW;
}

/* A file into `bytes`. False after saying that it can't be read. */
static int load(const char *file, uint8_t *bytes, size_t room, size_t *length)
{
    int whole = read_file(file, bytes, room, length);
    if (!whole)
        fprintf(stderr, OWN_NAME ": %s can't be read\n", file);
    return whole;
}

/* For a refusal of the folder's own chart, which was good when it was written: no advice about a file from the supplier helps. */
static void say_spoilt(const char *path, struct s57_answer answer)
{
    printf("%s: The chart in this folder is damaged. Start anew: admit the newest edition of the cell, then offer all its updates in order.", path);
    say_where(answer);
}

/* ---- the commands, each on the words behind it */

static int admit(char **word)
{
    const char *base = word[0], *path = word[1];
    size_t length;
    int folder = open_folder(path, keep_open);
    if (folder < 0 || !load(base, cell, sizeof cell, &length))
        return HOST_FAILED;
    uint32_t code = s57_admit(cell, length, out, sizeof out, work, sizeof work, area, sizeof area);
    struct s57_answer answer = s57_answer_read(area);
    if (code == S57_DONE && !keep(folder, path, answer.number))
        return HOST_FAILED;
    say(base, "The chart was taken.", answer);
    return code == S57_DONE ? HOST_DONE : HOST_REFUSED;
}

static int offer_one(int folder, const char *path, const char *file)
{
    size_t cell_length, update_length;
    if (!fetch(folder, path, &cell_length) || !load(file, update, sizeof update, &update_length))
        return HOST_FAILED;
    uint32_t code = s57_apply(cell, cell_length, update, update_length, out, sizeof out, work, sizeof work, area, sizeof area);
    struct s57_answer answer = s57_answer_read(area);
    if (code == S57_DONE && !keep(folder, path, answer.number))
        return HOST_FAILED;
    if (answer.file == S57_CELL)
        say_spoilt(path, answer);
    else
        say(file, "The update was taken.", answer);
    return code == S57_DONE ? HOST_DONE : HOST_REFUSED;
}

static int offer(char **word)
{
    int folder = open_folder(word[1], keep_open);
    return folder < 0 ? HOST_FAILED : offer_one(folder, word[1], word[0]);
}

/* What the chart shows, as it stands in the folder. */
static int show_one(int folder, const char *path)
{
    size_t length;
    if (!fetch(folder, path, &length))
        return HOST_FAILED;
    if (s57_judge(cell, length, work, sizeof work, area, sizeof area) != S57_DONE) {
        say_spoilt(path, s57_answer_read(area));
        return HOST_REFUSED;
    }
    struct shown shown = shown_read(cell);
    printf("%s: %s, edition %u, update %u, issued %.4s-%.2s-%.2s, updated to %.4s-%.2s-%.2s\n", path, shown.name, shown.edition, shown.number,
           shown.issued, shown.issued + 4, shown.issued + 6, shown.updated, shown.updated + 4, shown.updated + 6);
    return HOST_DONE;
}

static int show(char **word)
{
    int folder = open_folder(word[0], keep_look);
    return folder < 0 ? HOST_FAILED : show_one(folder, word[0]);
}

/* Of two exit statuses: a failure is worse than a refusal, and that than what was done. */
static int worse(int one, int other)
{
    return one > other ? one : other;
}

static int follow(char **word)
{
    const char *path = word[0];
    int folder = open_folder(path, keep_open), end = HOST_DONE;
    if (folder < 0)
        return HOST_FAILED;
    for (char **file = word + 1; *file != NULL; file++) {
        int offered = offer_one(folder, path, *file);
        int shown = offered == HOST_FAILED ? HOST_FAILED : show_one(folder, path);
        end = worse(end, worse(offered, shown));
        if (shown != HOST_DONE)
            break;
    }
    return end;
}

/* What unit can do: the word for it, how many words follow, whether more may, which, and the function that does it with them. Behind the last one there
   is a null. */
static const struct command {
    const char *name;
    int words, more;
    const char *takes;
    int (*run)(char **word);
} commands[] = {
    {"admit", 2, 0, "BASE FOLDER", admit},
    {"offer", 2, 0, "UPDATE FOLDER", offer},
    {"follow", 2, 1, "FOLDER UPDATE..", follow},
    {"show", 1, 0, "FOLDER", show},
};

enum { COMMANDS = sizeof commands / sizeof commands[0] };

static int fits(const struct command *command, int words, const char *name)
{
    return (words == command->words || (command->more && words > command->words)) && strcmp(name, command->name) == 0;
}

int main(int words, char **word)
{
    setvbuf(stdout, NULL, _IOLBF, BUFSIZ); /* what was done is said at once, and in its order with what went wrong */
    for (size_t i = 0; i < COMMANDS; i++)
        if (words >= 2 && fits(&commands[i], words - 2, word[1]))
            return commands[i].run(word + 2);
    for (size_t i = 0; i < COMMANDS; i++)
        fprintf(stderr, "usage: " OWN_NAME " %s %s\n", commands[i].name, commands[i].takes);
    return HOST_FAILED;
}
