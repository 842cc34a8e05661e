/* The chart loader, for C and C++. Link with the archive of the crate `s57`, target/staticlib/libs57.a, which `bench/archives.sh s57` makes: x86-64
   code, and of the C library it wants memcpy and memset alone. judge.c beside this file is a host of one page; unit.c is one that keeps a chart up to
   date.

   It allocates nothing, keeps no state between calls, and opens no file: it works in the bytes that the host lends it. So it may be called from
   several threads at once, each with areas of its own; several may judge the same cell's bytes. S57_STACK_JUDGE, S57_STACK_ADMIT and S57_STACK_APPLY say
   how much stack a call takes: a thread with a small stack of its own needs that much and more. */
#ifndef S57LOADER_H
#define S57LOADER_H

#include <stddef.h>
#include <stdint.h>

/* The release. `make -C host version` writes it here, as the file VERSION has it. */
#define S57LOADER_VERSION "1.0.1"
#define S57LOADER_VERSION_MAJOR 1
#define S57LOADER_VERSION_MINOR 0
#define S57LOADER_VERSION_PATCH 1

#ifdef __cplusplus
extern "C" {
#endif

/* ---- sizes, in bytes */

#define S57_LONGEST 5242880  /* a cell has at most that many, an update and a re-issue too; a longer file is refused with S57_LONG, a longer re-issue
                                with S57_SIZE */
#define S57_WORK_A_RECORD 16 /* of the work area, for each record of the files given, the first of each (record 0) counted too */
#define S57_ANSWER 16        /* of the answer area, exactly */

/* For a host that doesn't want to count records. No record is shorter than its leader of 24 bytes, one directory entry of 6 (a tag of 4, a length and a
   position of one digit each), the byte 1E that ends the directory, and a field of one byte, 1E again. So work areas of these sizes always suffice, and
   S57_WORK never comes. For s57_judge and s57_admit: S57_WORK_FOR of the cell's length, about half of it, or S57_WORK_MOST, which is 2,621,440, for
   every cell. For s57_apply: S57_WORK_FOR of the cell's length and S57_WORK_FOR of the update's, added, or S57_WORK_BOTH, which is 5,242,880, for every
   pair. */
#define S57_SHORTEST_RECORD (24 + (4 + 1 + 1) + 1 + 1)
#define S57_WORK_FOR(file_len) ((size_t)(file_len) / S57_SHORTEST_RECORD * S57_WORK_A_RECORD)
#define S57_WORK_MOST (S57_LONGEST / S57_SHORTEST_RECORD * S57_WORK_A_RECORD)
#define S57_WORK_BOTH (2 * S57_WORK_MOST)

/* What a call takes of the stack at most, below the function that makes it, whatever the files are; nearly all of it are areas of fixed size, in some of which
   s57_apply builds each record that the update changes. It is what the archive's code comes to (host/stack.sh says it), 8 KB for memcpy and memset, which are
   the C library's and may be looked for at their first call, and what is missing to whole pages of 4 KB. A thread's stack must have room besides for the
   host's own functions above the call, and for what the thread library keeps there, which are a few KB: one of S57_STACK_APPLY + PTHREAD_STACK_MIN bytes
   suffices where the thread's function does little else. bench/tests/stack.c makes each call with exactly this much. */
#define S57_STACK_JUDGE 278528
#define S57_STACK_ADMIT 278528
#define S57_STACK_APPLY 675840

/* ---- the answer */

/* The codes: s57_judge gives 0 to 8 and 17 to 19, s57_admit 20 and 21 besides, s57_apply all of them. The first that applies is the answer, tried in
   this order: 1, 2 of the cell, then of the update; 3; 4 to 8 of the cell, then 4 to 7 of the update, 5 before 6 record by record; 9 to 12; 13 to 16
   record by record, in the update's order; 17 to 19 item by item, in held order; 20; 21. Each is given only where it applies. docs/CODES.md has
   sentences for the screen.

   File and record of the answer: 1, 2 and 4 to 7 name S57_CELL or S57_UPDATE, and the record said below, with 1 and 4 record 0; 8 names S57_CELL, record
   1; 9 to 12 name S57_UPDATE, record 1, which is that of DSID; 13 to 16 name S57_UPDATE and the record; 17 to 19 name S57_CELL in s57_judge and
   s57_admit and S57_RESULT in s57_apply, and the item's place; 20 names S57_RESULT, record 0; 0, 3 and 21 name no file, record 0. */
enum s57_code {
    S57_DONE = 0,      /* the cell is good; s57_admit and s57_apply have written a re-issue, number: the bytes written */
    S57_LONG = 1,      /* the file has over S57_LONGEST bytes */
    S57_FRAME = 2,     /* its framing is broken, or it has no bytes; record: the first bad one */
    S57_WORK = 3,      /* the work area is too short: nothing is said of the files but that they are framed; number: the bytes needed */
    S57_DESCRIBED = 4, /* record 0 breaks its rule */
    S57_LAYOUT = 5,    /* a record or field is missing, wrongly placed, undeclared or wrongly filled; record: that one, or where it is due */
    S57_VALUE = 6,     /* a record holds a value that it must not hold; record: that one */
    S57_TWICE = 7,     /* two records have one name; record: the first repeat */
    S57_COUNTS = 8,    /* the counts in record 1 differ from the cell's records */
    S57_OTHER = 9,     /* the update is one of another cell: the first 8 letters of DSNM differ */
    S57_EDITION = 10,  /* it is one of another edition: EDTN differs as a number */
    S57_NUMBER = 11,   /* it isn't the next one: its UPDN isn't the cell's plus 1 */
    S57_LEVEL = 12,    /* its texts are of another level: AALL or NALL differs */
    S57_TARGET = 13,   /* a record inserts a name that is held, or modifies or deletes one that isn't */
    S57_VERSION = 14,  /* its RVER isn't 1 where it inserts, or the held one plus 1 where it modifies or deletes */
    S57_IDENTITY = 15, /* it modifies or deletes a feature whose FOID, PRIM, GRUP or OBJL is another */
    S57_EDIT = 16,     /* it breaks a rule for edits: of controls, indexes, counts, removed attributes, or what a delete may have */
    S57_SHAPE = 17,    /* an item's coordinates or pointers aren't those of its class or primitive; record: its place */
    S57_POINTER = 18,  /* an item points to one that isn't there; record: its place */
    S57_RING = 19,     /* an area's rings don't close or are marked wrongly; record: its place */
    S57_SIZE = 20,     /* the re-issue would be over a limit: a record over 99,999 bytes, over 65,536 records, over S57_LONGEST bytes */
    S57_ROOM = 21      /* the output area is shorter than the re-issue; number: the bytes needed */
};

/* The file that a refusal is about. */
enum s57_file {
    S57_NO_FILE = 0, /* with S57_DONE, S57_WORK and S57_ROOM */
    S57_CELL = 1,
    S57_UPDATE = 2,
    S57_RESULT = 3   /* the cell as it would be: with S57_SIZE, and with 17 to 19 from s57_apply */
};

struct s57_answer {
    uint32_t code;   /* of enum s57_code; what the call returns too */
    uint32_t file;   /* of enum s57_file */
    uint32_t record; /* from 0, as it stands in the file. With 17 to 19 instead the item's place in held order: vectors of class 110, then 120, then
                        130, then features, each by RCID ascending, the first of all at 3 */
    uint32_t number; /* with S57_WORK the bytes that the work area must have, with S57_ROOM those that the output area must have, with S57_DONE from
                        s57_admit and s57_apply those of the re-issue, else 0. Never an update's number: s57_apply below says where that stands */
};

/* Reads an answer area of S57_ANSWER bytes: code, file, record, number, four bytes each, low byte first. */
static inline struct s57_answer s57_answer_read(const uint8_t *area)
{
    uint32_t word[4];
    struct s57_answer answer;
    for (unsigned i = 0; i < 4; i++)
        word[i] = (uint32_t)area[4 * i] | (uint32_t)area[4 * i + 1] << 8 | (uint32_t)area[4 * i + 2] << 16 | (uint32_t)area[4 * i + 3] << 24;
    answer.code = word[0];
    answer.file = word[1];
    answer.record = word[2];
    answer.number = word[3];
    return answer;
}

/* ---- the calls */

/* Judges a cell: any bytes, of any length. Returns the code.

   cell    is only read.
   work    suffices with S57_WORK_A_RECORD bytes a record of the cell; more does no harm. What it held before doesn't matter. After every call, also one
           that refuses, all of it is zero.
   answer  of S57_ANSWER bytes is filled. One of any other length stays untouched, and the code is returned all the same.

   What the host owes: each pointer leads to as many bytes as it says, at any address, aligned or not; the two areas overlap neither each other nor
   the cell; and nobody else writes to any of the three, or reads the areas, until the call returns. No pointer is null, not even one of
   length 0. Nothing is read or written through a pointer of length 0: the tests (bench/tests/boundary_judge.c) lend one to an address that has no memory. */
uint32_t s57_judge(const uint8_t *cell, size_t cell_len, uint8_t *work, size_t work_len, uint8_t *answer, size_t answer_len);

/* Admits a cell: judges it as s57_judge does, and where that gives 0 writes its re-issue, which is the cell in its one held form, to the front of the
   output area. Returns the code; number in the answer is the re-issue's length.

   out     suffices with exactly as many bytes as the re-issue has. That may be more than the cell has, but never over S57_LONGEST: with that many
           S57_ROOM never comes. The bytes behind the re-issue stay as they were, and after any refusal all of them do. What it held before
           doesn't matter.
   cell, work, answer  as with s57_judge.

   Admitting a re-issue writes the same bytes again. The host owes what it owes s57_judge, for three areas now: no two of them overlap, and none overlaps
   the cell. */
uint32_t s57_admit(const uint8_t *cell, size_t cell_len, uint8_t *out, size_t out_len, uint8_t *work, size_t work_len, uint8_t *answer, size_t answer_len);

/* Applies an update: works it into a cell, and where nothing is wrong with the cell, the update or the result writes the result's re-issue to the front of
   the output area. Returns the code; number in the answer is the re-issue's length.

   cell    is only read. It may be a re-issue or any other cell that keeps 1 to 8; its topology isn't judged, but the result's is.
   update  is only read. One of length 0 is S57_FRAME, file S57_UPDATE, record 0.
   out     suffices with exactly as many bytes as the result's re-issue has. That is never over S57_LONGEST: with that many S57_ROOM never comes. Where
           nothing else is wrong, a call with no output area answers S57_ROOM, and number says how many bytes it takes. The bytes behind the re-issue
           stay as they were. What it held before doesn't matter.
   work    suffices with S57_WORK_A_RECORD bytes a record of both files; more does no harm. After every call all of it is zero.
   answer  as with s57_judge.

   After any refusal not a byte of the output area has changed, and the cell is what it was: it may be offered the next update, or the same one again with
   larger areas after S57_WORK and S57_ROOM. The host owes what it owes s57_admit: no two of the three areas overlap, and none overlaps the cell or the
   update. The two files may overlap, since they are only read.

   A unit that keeps a chart holds the bytes that s57_admit wrote, as many as number says. At each update that it is offered it calls this on them; where
   that gives 0, the bytes written here, as many as number says, take their place, else it keeps what it has. Then it holds the base with every
   update up to its number, each once and in order, in whatever order and however often files are offered: an update that is in already, or comes too early,
   is S57_NUMBER. Two units of one base that show one number hold equal bytes as long as no two different updates of that chart and edition with one number
   are about: of two such a unit takes the one that it is offered first.

   The number that the screen shows is that of the unit's cell, and the host reads it there, since the answer has no update number: UPDN in DSID, which is
   the second field of record 1. Beside it stand DSNM (the name), EDTN (the edition), UADT and ISDT (the dates). The result keeps the cell's DSID,
   but UPDN is the update's, and UADT and ISDT both are the update's ISDT. shown.c reads them. */
uint32_t s57_apply(const uint8_t *cell, size_t cell_len, const uint8_t *update, size_t update_len, uint8_t *out, size_t out_len, uint8_t *work,
                   size_t work_len, uint8_t *answer, size_t answer_len);

#ifdef __cplusplus
}
#endif

#endif
