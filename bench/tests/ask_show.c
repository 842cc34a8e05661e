/* Which seed makes which case of Show, and the names that are asked for: the C reader finds them in the files. */
#include "ask_show.h"

#include "../generators/generate_read.h"
#include "../reader/reader.h"

#include <stdlib.h>
#include <string.h>

size_t asked_kinds(void)
{
    return ASKED;
}

const char *asked_kind(size_t asked)
{
    static const char *const kinds[ASKED] = {
        "a record of the update",    "a record of the cell",         "a record of both",          "an id that is not there",
        "another class of the four", "class 10 or 20, and their id", "any other number as class", "id 0 or 4,294,967,295",
    };
    return kinds[asked];
}

/* ---- files */

static struct show_case take_read(struct read_case read)
{
    struct show_case made = {read.kind, read.cell, read.update, read.records, read.known, read.verdict};
    if (read.both && read.update.length == 0) { /* refused there, none here */
        made.known = read.known && read.records == read.cell_records; /* else it lost its bytes, and the cell may be broken too */
        made.records = read.cell_records;
        made.verdict = (struct answer){0};
    }
    return made;
}

/* Show takes what Apply refuses behind reading. Of cases of codes 1 to 8 the maker of pairs knows nothing. */
static struct show_case take_apply(struct apply_case apply)
{
    struct show_case made = {apply.kind, apply.cell, apply.update, apply.records, apply.known || apply.left_to_judge, {0}};
    if (apply.verdict.code >= CODE_LONG && apply.verdict.code <= CODE_COUNTS)
        made.known = false;
    buffer_free(&apply.held);
    return made;
}

/* The cell alone: what reading says of it is not known where the update was refused first or the cell is not known to be good. */
static void drop_update(struct show_case *made)
{
    made->known = made->known && made->verdict.code == CODE_DONE;
    made->records = reader_frame(made->cell.bytes, made->cell.length).records;
    made->update.length = 0;
}

/* Of three seeds one is reading's, with its many broken files and updates of other cells, two are pairs, which have names in common. */
struct show_case show_case_make(uint64_t seed)
{
    struct random random = {seed ^ UINT64_C(0x5E0FA11)};
    struct show_case made = seed % 3 == 0 ? take_read(read_case_make(seed / 3)) : take_apply(apply_case_make(seed / 3 * 2 + seed % 3));
    if (random_one_in(&random, 8))
        drop_update(&made);
    return made;
}

struct show_case large_show_make(size_t index)
{
    return take_apply(large_apply_make(index));
}

void show_case_free(struct show_case *made)
{
    buffer_free(&made->cell);
    buffer_free(&made->update);
}

/* ---- the names of a file */

struct names {
    struct name *name;
    size_t count;
    uint32_t header[2]; /* the ids of DSID and DSPM */
};

/* Of any framed file, whatever its records are: five bytes where an identifier would stand. */
static struct names names_of(const struct buffer *file, bool update)
{
    struct framing framing = reader_frame(file->bytes, file->length);
    struct names names = {.name = grow(NULL, framing.records + 1, sizeof names.name[0])};
    size_t start = 0;
    if (!framing.good)
        return names;
    for (size_t index = 0; index < framing.records; index++) {
        struct record record = reader_record(file->bytes, start);
        struct field field = {0};
        if (record.entries > 1)
            field = reader_field(file->bytes, &record, 1);
        if (index > 0 && field.length > 5) {
            const uint8_t *at = file->bytes + field.start;
            struct name name = {at[0], (uint32_t)get_number(at + 1, 4), update, start, record.end - start};
            if (index >= (update ? FIRST_UPDATE_ITEM : FIRST_CELL_ITEM))
                names.name[names.count++] = name;
            else
                names.header[index - 1] = name.id;
        }
        start = record.end;
    }
    return names;
}

/* The first record of the file that has the name, or null. */
static const struct name *find_in(const struct names *names, uint32_t class, uint32_t id)
{
    for (size_t i = 0; i < names->count; i++)
        if (names->name[i].class == class && names->name[i].id == id)
            return &names->name[i];
    return NULL;
}

static struct name any_name(const struct names *names, struct random *random)
{
    struct name none = {.class = 110, .id = random_between(random, 1, 20)};
    return names->count > 0 ? names->name[random_below(random, (uint32_t)names->count)] : none;
}

/* ---- kinds of names */

/* From any of the cell's names on, the first that the update has too. */
static struct name common_name(const struct names *cell, const struct names *update, struct random *random)
{
    size_t first = random_below(random, (uint32_t)cell->count);
    for (size_t i = 0; i < cell->count && i < 2000; i++) {
        struct name name = cell->name[(first + i) % cell->count];
        if (find_in(update, name.class, name.id) != NULL)
            return name;
    }
    return any_name(cell, random);
}

static uint32_t good_class(struct random *random)
{
    static const uint8_t classes[] = {100, 110, 120, 130};
    return classes[random_below(random, sizeof classes)];
}

static uint32_t wild_class(struct random *random)
{
    switch (random_below(random, 5)) {
    case 0:
        return good_class(random) + (random_between(random, 1, 0xFFFFFF) << 8);
    case 1:
        return good_class(random) + (UINT32_C(1) << random_between(random, 8, 31));
    case 2:
        return random_byte(random);
    case 3:
        return random_one_in(random, 2) ? 0 : UINT32_MAX;
    default:
        return (uint32_t)random_next(random);
    }
}

static struct name draw_name(const struct names *cell, const struct names *update, enum asked asked, struct random *random)
{
    struct name name = any_name(update->count > 0 && random_one_in(random, 2) ? update : cell, random);
    switch (asked) {
    case OF_THE_UPDATE:
        return any_name(update->count > 0 ? update : cell, random);
    case OF_THE_CELL:
        return any_name(cell, random);
    case OF_BOTH_FILES:
        return common_name(cell, update, random);
    case NO_SUCH_ID:
        name.id += random_one_in(random, 2) ? 1 : UINT32_MAX;
        break;
    case OTHER_CLASS:
        name.class = good_class(random);
        break;
    case HEADER_CLASS:
        name.class = random_one_in(random, 2) ? 10 : 20;
        if (random_one_in(random, 2))
            name.id = (random_one_in(random, 3) ? update : cell)->header[name.class == 10 ? 0 : 1];
        break;
    case WILD_CLASS:
        name.class = wild_class(random);
        break;
    default:
        name.id = random_one_in(random, 2) ? 0 : UINT32_MAX;
    }
    return name;
}

struct name ask_name(const struct show_case *made, enum asked asked, struct random *random)
{
    struct names cell = names_of(&made->cell, false), update = names_of(&made->update, true);
    struct name name = draw_name(&cell, &update, asked, random);
    const struct name *there = find_in(&update, name.class, name.id);
    if (there == NULL)
        there = find_in(&cell, name.class, name.id);
    name = there != NULL ? *there : (struct name){.class = name.class, .id = name.id};
    free(cell.name);
    free(update.name);
    return name;
}
