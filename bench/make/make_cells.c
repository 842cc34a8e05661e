/* Writes good generated cells for readers that know the S-57 object catalogue: features of all primitives, of classes and with attributes that the
   catalogue has, national texts, soundings, relations. Record 0 is such as other readers open; all else is written in the generator's many ways: any
   order, ids, running numbers and sizes, numbers with leading zeros. The C reader must judge each 0. With each cell come five updates, one after the other,
   that do what other readers can do too: bench/tests/gdal.sh.
   usage: make_cells FOLDER [COUNT [FIRST_SEED]]
   The cell of seed 7 is FOLDER/007.000, its updates 007.001 to 007.005. Those of even seeds have lists in several fields; FOLDER/008-joined.000 and so on are
   then the same with each list in one. */
#include "../generators/generate_pair.h"
#include "../reader/reader.h"

#include <stdio.h>
#include <stdlib.h>
#include <string.h>

/* ---- the part of the catalogue that is used. A kind of value is named by the catalogue's letter: E one of a list, L some of a list, F a number,
   I a whole number, A a coded text, S a free text. */

struct attribute {
    uint16_t label;
    char kind;
};

enum { POINT = 1, LINE = 2, AREA = 4, COLLECTION = 8, MOST_ATTRIBUTES = 8, SOUNDG = 129, UPDATES = 5 };

static const struct object_class {
    uint16_t code;
    unsigned primitives;
    struct attribute attribute[MOST_ATTRIBUTES]; /* up to label 0 */
} classes[] = {
    {12, POINT | AREA, {{3, 'E'}, {75, 'L'}, {90, 'F'}, {94, 'L'}, {102, 'S'}, {116, 'S'}, {133, 'I'}}},             /* BUISGL */
    {17, POINT, {{4, 'E'}, {36, 'E'}, {75, 'L'}, {102, 'S'}, {116, 'S'}, {133, 'I'}, {147, 'A'}, {149, 'L'}}},       /* BOYLAT */
    {30, LINE, {{15, 'E'}, {75, 'L'}, {90, 'F'}, {102, 'S'}, {116, 'S'}, {148, 'A'}}},                               /* COALNE */
    {42, LINE | AREA, {{87, 'F'}, {88, 'F'}, {125, 'L'}, {133, 'I'}, {147, 'A'}}},                                   /* DEPARE */
    {43, LINE, {{102, 'S'}, {133, 'I'}, {174, 'F'}}},                                                                /* DEPCNT */
    {71, POINT | LINE | AREA, {{102, 'S'}, {116, 'S'}, {149, 'L'}}},                                                 /* LNDARE */
    {75, POINT, {{37, 'L'}, {75, 'L'}, {95, 'F'}, {107, 'E'}, {136, 'F'}, {141, 'A'}, {142, 'F'}, {178, 'F'}}},      /* LIGHTS */
    {122, POINT | LINE | AREA, {{60, 'E'}, {112, 'L'}, {116, 'S'}, {158, 'S'}, {187, 'E'}}},                         /* SLCONS */
    {159, POINT | AREA, {{71, 'E'}, {116, 'S'}, {125, 'L'}, {156, 'L'}, {179, 'F'}, {187, 'E'}}},                    /* WRECKS */
    {270, POINT | LINE | AREA, {{0, 0}}},                                                                           /* a class of no catalogue */
    {302, AREA, {{18, 'E'}, {102, 'S'}}},                                                                            /* M_COVR */
    {306, AREA, {{109, 'E'}, {117, 'F'}, {133, 'I'}}},                                                               /* M_NSYS */
    {308, AREA, {{72, 'E'}, {87, 'F'}, {151, 'A'}, {156, 'L'}}},                                                     /* M_QUAL */
    {400, COLLECTION, {{102, 'S'}, {116, 'S'}}},                                                                     /* C_AGGR */
    {401, COLLECTION, {{102, 'S'}, {116, 'S'}, {133, 'I'}}},                                                         /* C_ASSO */
};

enum { CLASSES = sizeof classes / sizeof classes[0] };

static const struct object_class soundings = {SOUNDG, POINT, {{93, 'E'}, {125, 'L'}, {144, 'F'}, {156, 'L'}}};
static const struct attribute of_vectors[] = {{401, 'F'}, {402, 'E'}, {0, 0}};

/* ---- values */

static void put_free_text(struct buffer *content, bool high, struct random *random)
{
    for (uint32_t count = random_below(random, 24); count > 0; count--)
        *buffer_more(content, 1) = (uint8_t)(high && random_one_in(random, 3) ? random_between(random, 0xA0, 0xFF)
                                                                              : random_between(random, 0x20, 0x7E));
    put_text(content, "");
}

/* One in six is empty: unknown. */
static void put_value(struct buffer *content, char kind, bool high, struct random *random)
{
    static const char *const some[] = {"1", "3,1", "1,11", "6,2,6", "4"}, *const coded[] = {"20240131", "GB,GB,graph,1", "(2)", "--0401"};
    char text[32] = "";
    if (kind == 'S') {
        put_free_text(content, high, random);
        return;
    }
    if (random_one_in(random, 6))
        kind = 0;
    switch (kind) {
    case 'E':
        snprintf(text, sizeof text, "%u", (unsigned)random_between(random, 1, 19));
        break;
    case 'L':
        snprintf(text, sizeof text, "%s", some[random_below(random, sizeof some / sizeof some[0])]);
        break;
    case 'F':
        snprintf(text, sizeof text, "%.2f", ((double)random_below(random, 40000) - 4000) / 100);
        break;
    case 'I':
        snprintf(text, sizeof text, "%u", (unsigned)random_between(random, 1, 2000000));
        break;
    case 'A':
        snprintf(text, sizeof text, "%s", coded[random_below(random, sizeof coded / sizeof coded[0])]);
        break;
    }
    put_text(content, text);
}

/* Some of these attributes, in any turn of their order, as a field at `at`, if any are. */
static void put_some(struct chart_record *record, size_t at, const char *tag, const struct attribute *known, bool high, struct random *random)
{
    size_t count = 0;
    while (count < MOST_ATTRIBUTES && known[count].label != 0)
        count++;
    struct buffer content = {0};
    size_t from = random_below(random, (uint32_t)count);
    for (size_t i = 0; i < count; i++) {
        const struct attribute *attribute = &known[(from + i) % count];
        if (random_one_in(random, 3))
            continue;
        put_number(&content, 2, attribute->label);
        put_value(&content, attribute->kind, high, random);
    }
    if (content.length > 0)
        insert_field(record, at, tag)->content = content;
}

/* ---- classes for features, attributes for all */

enum { BEHIND_VRID = 2, BEHIND_FOID = 3 };

/* Whether a point stands at a node of soundings: its FSPT begins with a NAME, which is the front of VRID. */
static bool has_soundings(const struct chart *cell, const struct chart_record *feature)
{
    const uint8_t *name = feature->field[find_field(feature, "FSPT")].content.bytes;
    for (size_t i = 3; i < cell->list.count; i++) {
        const struct chart_record *record = &cell->list.record[i];
        if (has_tag(&record->field[1], "VRID") && memcmp(record->field[1].content.bytes, name, 5) == 0)
            return find_field(record, "SG3D") < record->count;
    }
    return false;
}

static const struct object_class *class_for(const struct chart *cell, const struct chart_record *feature, struct random *random)
{
    uint8_t primitive = feature->field[1].content.bytes[5];
    unsigned wanted = primitive == 255 ? COLLECTION : 1u << (primitive - 1);
    const struct object_class *chosen;
    if (wanted == POINT && has_soundings(cell, feature))
        return &soundings;
    do
        chosen = &classes[random_below(random, CLASSES)];
    while ((chosen->primitives & wanted) == 0);
    return chosen;
}

/* NINFOM everywhere, NOBJNM where the class has OBJNAM. */
static void put_national(struct chart_record *feature, size_t at, const struct object_class *class, bool high, struct random *random)
{
    static const struct attribute information[] = {{300, 'S'}, {0, 0}}, both[] = {{300, 'S'}, {301, 'S'}, {0, 0}};
    bool named = false;
    for (size_t i = 0; i < MOST_ATTRIBUTES; i++)
        named = named || class->attribute[i].label == 116;
    if (class->attribute[0].label != 0)
        put_some(feature, at, "NATF", named ? both : information, high, random);
}

static void dress(struct chart *cell, struct random *random)
{
    const uint8_t *levels = cell->list.record[1].field[2].content.bytes + 1;
    for (size_t i = 3; i < cell->list.count; i++) {
        struct chart_record *record = &cell->list.record[i];
        if (has_tag(&record->field[1], "VRID")) {
            put_some(record, BEHIND_VRID, "ATTV", of_vectors, false, random);
            continue;
        }
        const struct object_class *class = class_for(cell, record, random);
        set_number(record->field[1].content.bytes + 7, 2, class->code);
        put_national(record, BEHIND_FOID, class, levels[1] == 1, random);
        put_some(record, BEHIND_FOID, "ATTF", class->attribute, levels[0] == 1, random);
    }
    count_records(cell);
}

static struct chart make_dressed(struct random *random)
{
    struct scene_style style = {.longest_ring = 6, .most_holes = 2, .most_relations = 6};
    style.isolated = random_between(random, 2, 16);
    style.soundings = random_between(random, 1, 6);
    style.connected = random_between(random, 2, 24);
    style.edges = random_below(random, 12);
    style.points = random_between(random, 4, 24);
    style.lines = random_between(random, 1, 10);
    style.areas = random_between(random, 1, 10);
    style.collections = random_between(random, 1, 4);
    style.most_coordinates = random_between(random, 2, 60);
    style.shuffled = random_one_in(random, 2);
    struct chart cell = make_cell(&style, random);
    dress(&cell, random);
    return cell;
}

/* ---- files */

/* Tags in any order and formats written in any way, where not `plain`; but 0000, controls and names as document 000 has them: other readers look at
   controls, and stumble over odd bytes in names. */
static void describe(struct chart *cell, bool plain, struct random *random)
{
    enum { CONTROLS = 9, UNIT_END = 0x1F };
    struct chart_record *first = &cell->list.record[0];
    struct buffer tree = {0};
    describe_chart(cell, true, random);
    if (plain)
        return;
    buffer_put(&tree, first->field[0].content.bytes, first->field[0].content.length);
    describe_chart(cell, false, random);
    buffer_free(&first->field[0].content);
    first->field[0].content = tree;
    for (size_t i = 1; i < first->count; i++) {
        struct buffer *content = &first->field[i].content;
        const struct tag_row *row = row_of_tag(first->field[i].tag);
        const uint8_t *name = content->bytes + CONTROLS, *end = memchr(name, UNIT_END, content->length - CONTROLS);
        memcpy(content->bytes, row->controls, CONTROLS);
        replace_bytes(content, (struct place){CONTROLS, (size_t)(end - name)}, row->name, strlen(row->name));
    }
}

/* In one of many ways. False after saying what went wrong. */
static bool write_anyhow(struct chart *chart, const char *path, struct random *random)
{
    size_t records = 0;
    struct answer answer = {0};
    describe(chart, random_one_in(random, 2), random);
    struct buffer file = write_file(chart, false, random, &records);
    dress_leader(file.bytes);
    if (!chart->update)
        answer = reader_judge(file.bytes, file.length, 16 * records);
    bool good = answer.code == CODE_DONE, written = good && buffer_save(&file, path);
    if (!good)
        fprintf(stderr, "make_cells: %s judged %u at record %u\n", path, (unsigned)answer.code, (unsigned)answer.record);
    else if (!written)
        fprintf(stderr, "make_cells: %s can't be written\n", path);
    buffer_free(&file);
    return written;
}

/* The base or an update of a seed, by its number; takes it over. Of even seeds once with each list in one field and once in several. */
static bool write_both(struct chart *chart, const char *folder, unsigned seed, unsigned number, struct random *random)
{
    bool written = true;
    char path[4096];
    if (seed % 2 == 0) {
        snprintf(path, sizeof path, "%s/%03u-joined.%03u", folder, seed, number);
        written = write_anyhow(chart, path, random);
        for (unsigned times = 0; times < 3; times++)
            split_lists(chart, random);
    }
    snprintf(path, sizeof path, "%s/%03u.%03u", folder, seed, number);
    written = written && write_anyhow(chart, path, random);
    chart_free(chart);
    return written;
}

/* Every other feature loses the comments of its relations: other readers can't edit a list that has some. */
static void drop_comments(struct chart *cell)
{
    for (size_t i = 3; i < cell->list.count; i += 2) {
        struct chart_record *record = &cell->list.record[i];
        size_t at = find_field(record, "FFPT"), length = list_length(record, "FFPT");
        for (size_t entry = 0; entry < length; entry++)
            replace_bytes(&record->field[at].content, subfield_place(&record->field[at], entry, "COMT"), "", 0);
    }
}

/* No update follows 999. */
static void number_base(struct chart *cell)
{
    struct chart_field *dsid = &cell->list.record[1].field[1];
    struct place place = subfield_place(dsid, 0, "UPDN");
    if (memcmp(dsid->content.bytes + place.start, "999", place.length) == 0)
        replace_bytes(&dsid->content, place, "099", 3);
}

static bool write_seed(const char *folder, unsigned seed)
{
    struct random random = {seed ^ UINT64_C(0x6DA1CE115)}, later = {seed ^ UINT64_C(0x5E21E5)};
    struct chart model = make_dressed(&random);
    number_base(&model);
    drop_comments(&model);
    struct chart base = copy_chart(&model);
    bool written = write_both(&base, folder, seed, 0, &random);
    for (unsigned number = 1; number <= UPDATES && written; number++) {
        struct step_style style = {.actions = random_between(&later, 4, 12), .plain = true};
        struct chart update = next_update(&model, &style, &later);
        written = write_both(&update, folder, seed, number, &later);
    }
    chart_free(&model);
    return written;
}

int main(int words, char **word)
{
    unsigned count = words > 2 ? (unsigned)strtoul(word[2], NULL, 10) : 20, first = words > 3 ? (unsigned)strtoul(word[3], NULL, 10) : 1;
    if (words < 2 || words > 4) {
        fprintf(stderr, "usage: make_cells FOLDER [COUNT [FIRST_SEED]]\n");
        return 2;
    }
    for (unsigned seed = first; seed - first < count; seed++)
        if (!write_seed(word[1], seed))
            return 1;
    return 0;
}
