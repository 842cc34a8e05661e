/* Writes a small believable harbour: land to the west, two depth areas, two islands in the deeper one, a mole with a light, buoys with lights and
   topmarks, soundings, a wreck, and the meta objects that a cell has. The C reader must judge it 0.
   usage: make_harbour FILE */
#include "../generators/generate_judge.h"
#include "../reader/reader.h"

#include <stdio.h>
#include <stdlib.h>
#include <string.h>

/* Object classes and attributes of the S-57 object catalogue. */
enum { BOYLAT = 17, BUISGL = 12, COALNE = 30, DEPARE = 42, DEPCNT = 43, HRBFAC = 64, LIGHTS = 75, LNDARE = 71, LNDMRK = 74, SLCONS = 122,
       SOUNDG = 129, TOPMAR = 144, WRECKS = 159, M_COVR = 302, M_NSYS = 306, M_QUAL = 308, C_AGGR = 400, C_ASSO = 401 };

enum { MASTER_TO_SLAVE = 2, PEER = 3, AGENCY = 540 };

/* ---- where things are: a hundredth of the cell's width and height a step, from its south-west corner at 50 42 N, 1 30 W */

struct spot_at {
    int x, y;
};

static void put_spot(struct buffer *content, struct spot_at at)
{
    put_number(content, 4, (uint32_t)(507000000 + at.y * 5000));
    put_number(content, 4, (uint32_t)(-15000000 + at.x * 7000));
}

static const struct spot_at isolated[] = {{65, 45}, {66, 66}, {85, 30}, {15, 52}, {33, 44}, {36, 47}};
enum { NORTH_BUOY = 2, SOUTH_BUOY = 1, WRECK = 3, TOWER = 4, OFFICE = 5, BASIN = 6, SOUNDINGS = 7 };

static const struct spot_at connected[] = {{0, 0},  {0, 100},  {30, 100}, {55, 100}, {100, 100}, {100, 0},
                                           {60, 0}, {40, 0},   {38, 50},  {48, 55},  {80, 60},   {70, 20}, {75, 25}};
enum { SOUTH_WEST = 1, NORTH_WEST, COAST_NORTH, CONTOUR_NORTH, NORTH_EAST, SOUTH_EAST, CONTOUR_SOUTH, COAST_SOUTH, MOLE_ROOT, MOLE_HEAD,
       ROUND_ISLAND, LONG_ISLAND_SOUTH, LONG_ISLAND_NORTH };

static const struct {
    uint32_t begin, end;
    size_t count;
    struct spot_at between[5];
} edges[] = {
    {SOUTH_WEST, NORTH_WEST, 0, {{0, 0}}},
    {NORTH_WEST, COAST_NORTH, 0, {{0, 0}}},
    {COAST_NORTH, CONTOUR_NORTH, 0, {{0, 0}}},
    {CONTOUR_NORTH, NORTH_EAST, 0, {{0, 0}}},
    {NORTH_EAST, SOUTH_EAST, 0, {{0, 0}}},
    {SOUTH_EAST, CONTOUR_SOUTH, 0, {{0, 0}}},
    {CONTOUR_SOUTH, COAST_SOUTH, 0, {{0, 0}}},
    {COAST_SOUTH, SOUTH_WEST, 0, {{0, 0}}},
    {COAST_SOUTH, MOLE_ROOT, 4, {{42, 12}, {39, 23}, {35, 33}, {36, 42}}},
    {MOLE_ROOT, COAST_NORTH, 3, {{35, 63}, {31, 78}, {33, 91}}},
    {CONTOUR_SOUTH, CONTOUR_NORTH, 5, {{61, 14}, {56, 30}, {57, 47}, {60, 65}, {54, 84}}},
    {MOLE_ROOT, MOLE_HEAD, 2, {{42, 51}, {46, 53}}},
    {ROUND_ISLAND, ROUND_ISLAND, 5, {{82, 63}, {85, 63}, {86, 59}, {84, 57}, {81, 57}}},
    {LONG_ISLAND_SOUTH, LONG_ISLAND_NORTH, 2, {{70, 23}, {72, 25}}},
    {LONG_ISLAND_NORTH, LONG_ISLAND_SOUTH, 2, {{75, 22}, {73, 20}}},
};
enum { WEST = 1, NORTH_LAND, NORTH_SHALLOW, NORTH_DEEP, EAST, SOUTH_DEEP, SOUTH_SHALLOW, SOUTH_LAND, SHORE_SOUTH, SHORE_NORTH, CONTOUR, MOLE, ROUND,
       LONG_WEST, LONG_EAST };

static void put_nodes(struct chart *chart)
{
    for (size_t i = 0; i < sizeof isolated / sizeof isolated[0]; i++)
        put_spot(&add_field(put_vector(chart, 110, (uint32_t)i + 1), "SG2D")->content, isolated[i]);
    struct buffer *soundings = &add_field(put_vector(chart, 110, SOUNDINGS), "SG3D")->content;
    for (int i = 0; i < 24; i++) {
        put_spot(soundings, (struct spot_at){62 + i % 6 * 7, 5 + i / 6 * 24});
        put_number(soundings, 4, (uint32_t)(52 + i * 37 % 45));
    }
    for (size_t i = 0; i < sizeof connected / sizeof connected[0]; i++)
        put_spot(&add_field(put_vector(chart, 120, (uint32_t)i + 1), "SG2D")->content, connected[i]);
}

static void put_end(struct buffer *content, uint32_t node, uint8_t topology)
{
    const uint8_t rest[] = {255, 255, topology, 255};
    put_number(content, 1, 120);
    put_number(content, 4, node);
    buffer_put(content, rest, sizeof rest);
}

/* The shore was surveyed better than the rest: it has a POSACC of its own. */
static void put_edges(struct chart *chart)
{
    enum { POSACC = 401 };
    for (size_t i = 0; i < sizeof edges / sizeof edges[0]; i++) {
        struct chart_record *record = put_vector(chart, 130, (uint32_t)i + 1);
        if (i + 1 == SHORE_SOUTH || i + 1 == SHORE_NORTH) {
            struct buffer *attributes = &add_field(record, "ATTV")->content;
            put_number(attributes, 2, POSACC);
            put_text(attributes, "0.5");
        }
        struct buffer *ends = &add_field(record, "VRPT")->content;
        put_end(ends, edges[i].begin, 1);
        put_end(ends, edges[i].end, 2);
        if (edges[i].count == 0)
            continue;
        struct buffer *content = &add_field(record, "SG2D")->content;
        for (size_t j = 0; j < edges[i].count; j++)
            put_spot(content, edges[i].between[j]);
    }
}

/* ---- features. Texts are "label=value;label=value". */

static uint64_t object_of(uint32_t feature)
{
    return AGENCY | (uint64_t)(7000000 + 13 * feature) << 16 | UINT64_C(1) << 48;
}

static void put_attributes_of(struct chart_record *record, const char *tag, const char *text)
{
    struct buffer *content = *text != '\0' ? &add_field(record, tag)->content : NULL;
    while (*text != '\0') {
        char *value;
        put_number(content, 2, strtoul(text, &value, 10));
        size_t length = strcspn(value + 1, ";");
        buffer_put(content, value + 1, length);
        put_text(content, "");
        text = value + 1 + length;
        text += *text == ';';
    }
}

struct related {
    uint32_t feature;
    uint8_t relation;
};

/* A boundary is an edge's number, negative where it runs backwards. */
static const struct {
    uint16_t object;
    uint8_t primitive;
    const char *attributes, *national;
    struct related related[4];
    int spatial[9];
} features[] = {
    {M_COVR, 3, "18=1", "", {{0}}, {WEST, NORTH_LAND, NORTH_SHALLOW, NORTH_DEEP, EAST, SOUTH_DEEP, SOUTH_SHALLOW, SOUTH_LAND}},
    {M_NSYS, 3, "109=1", "", {{0}}, {WEST, NORTH_LAND, NORTH_SHALLOW, NORTH_DEEP, EAST, SOUTH_DEEP, SOUTH_SHALLOW, SOUTH_LAND}},
    {M_QUAL, 3, "72=2", "", {{0}}, {WEST, NORTH_LAND, NORTH_SHALLOW, NORTH_DEEP, EAST, SOUTH_DEEP, SOUTH_SHALLOW, SOUTH_LAND}},
    {LNDARE, 3, "", "", {{0}}, {WEST, NORTH_LAND, -SHORE_NORTH, -SHORE_SOUTH, SOUTH_LAND}},
    {LNDARE, 3, "116=Round Island", "301=\xCEle Ronde", {{0}}, {ROUND}},
    {LNDARE, 3, "116=Long Island", "301=\xCEle Longue", {{0}}, {LONG_WEST, LONG_EAST}},
    {DEPARE, 3, "87=0;88=5", "", {{0}}, {SHORE_SOUTH, SHORE_NORTH, NORTH_SHALLOW, -CONTOUR, SOUTH_SHALLOW}},
    {DEPARE, 3, "87=5;88=10", "", {{0}}, {CONTOUR, NORTH_DEEP, EAST, SOUTH_DEEP, -ROUND, -LONG_EAST, -LONG_WEST}},
    {COALNE, 2, "", "", {{0}}, {SHORE_SOUTH, SHORE_NORTH}},
    {COALNE, 2, "", "", {{0}}, {ROUND}},
    {COALNE, 2, "", "", {{0}}, {LONG_WEST, LONG_EAST}},
    {DEPCNT, 2, "174=5", "", {{0}}, {CONTOUR}},
    {SLCONS, 2, "60=1;116=Outer Mole", "301=M\xF4le ext\xE9rieur", {{0}}, {MOLE}},
    {LIGHTS, 1, "75=3;107=2;141=(1);142=5;178=6", "", {{0}}, {120, MOLE_HEAD}},
    {BOYLAT, 1, "4=2;36=1;75=3;116=No 2", "", {{16, MASTER_TO_SLAVE}, {17, MASTER_TO_SLAVE}}, {110, SOUTH_BUOY}},
    {LIGHTS, 1, "75=3;107=2;141=(2);142=6;178=3", "", {{0}}, {110, SOUTH_BUOY}},
    {TOPMAR, 1, "75=3;171=5", "", {{0}}, {110, SOUTH_BUOY}},
    {BOYLAT, 1, "4=1;36=2;75=4;116=No 1", "", {{19, MASTER_TO_SLAVE}}, {110, NORTH_BUOY}},
    {LIGHTS, 1, "75=4;107=2;141=(2);142=6;178=3", "", {{0}}, {110, NORTH_BUOY}},
    {WRECKS, 1, "179=4.2;187=3", "", {{0}}, {110, WRECK}},
    {SOUNDG, 1, "156=3", "", {{0}}, {110, SOUNDINGS}},
    {LNDMRK, 1, "35=17;95=31;116=Church tower", "", {{0}}, {110, TOWER}},
    {BUISGL, 1, "116=Harbour office", "301=Capitainerie", {{0}}, {110, OFFICE}},
    {HRBFAC, 1, "", "", {{0}}, {110, BASIN}},
    {C_AGGR, 255, "116=Harbour entrance", "", {{14, PEER}, {15, PEER}, {18, PEER}}, {0}},
    {C_ASSO, 255, "", "", {{18, PEER}, {20, PEER}}, {0}},
};

/* The cell's own limits are no boundary of the thing itself: USAG 3. */
static bool is_limit(int edge)
{
    return edge >= WEST && edge <= SOUTH_LAND;
}

static void put_boundaries(struct buffer *content, const int *spatial, bool area)
{
    int start = 0;
    for (bool exterior = true; *spatial != 0; spatial++) {
        bool reversed = *spatial < 0;
        int edge = reversed ? -*spatial : *spatial;
        int from = (int)(reversed ? edges[edge - 1].end : edges[edge - 1].begin), to = (int)(reversed ? edges[edge - 1].begin : edges[edge - 1].end);
        uint8_t usage = !area ? 255 : is_limit(edge) ? 3 : exterior ? 1 : 2;
        const uint8_t rest[] = {reversed ? 2 : 1, usage, usage == 3 ? 255 : 2};
        put_number(content, 1, 130);
        put_number(content, 4, (uint64_t)edge);
        buffer_put(content, rest, sizeof rest);
        start = start == 0 ? from : start;
        if (to == start) {
            exterior = false;
            start = 0;
        }
    }
}

static void put_spatial(struct chart_record *record, uint8_t primitive, const int *spatial)
{
    if (primitive == 255)
        return;
    struct buffer *content = &add_field(record, "FSPT")->content;
    if (primitive > 1) {
        put_boundaries(content, spatial, primitive == 3);
        return;
    }
    put_number(content, 1, (uint64_t)spatial[0]);
    put_number(content, 4, (uint64_t)spatial[1]);
    put_number(content, 3, 0xFFFFFF);
}

static void put_relations(struct chart_record *record, const struct related *related)
{
    struct buffer *content = related->feature != 0 ? &add_field(record, "FFPT")->content : NULL;
    for (; related->feature != 0; related++) {
        put_number(content, 8, object_of(related->feature));
        put_number(content, 1, related->relation);
        put_text(content, "");
    }
}

static void put_features(struct chart *chart)
{
    for (uint32_t i = 0; i < sizeof features / sizeof features[0]; i++) {
        struct chart_record *record = put_feature(chart, i + 1, features[i].primitive, features[i].object, object_of(i + 1));
        put_attributes_of(record, "ATTF", features[i].attributes);
        put_attributes_of(record, "NATF", features[i].national);
        put_relations(record, features[i].related);
        put_spatial(record, features[i].primitive, features[i].spatial);
    }
}

/* ---- the file */

static struct buffer write_harbour(size_t *records)
{
    struct random random = {1};
    struct chart chart = bare_cell(&random);
    struct draft draft = {0};
    struct chart_record *header = &chart.list.record[1];
    struct place name = subfield_place(&header->field[1], 0, "DSNM"), comment = subfield_place(&header->field[1], 0, "COMT");
    memcpy(header->field[1].content.bytes + name.start, "GB5HRBR1.000", name.length);
    replace_bytes(&header->field[1].content, comment, "A harbour that is nowhere", 25);
    header->field[2].content.bytes[2] = 1;
    comment = subfield_place(&chart.list.record[2].field[1], 0, "COMT");
    replace_bytes(&chart.list.record[2].field[1].content, comment, "", 0);
    put_nodes(&chart);
    put_edges(&chart);
    put_features(&chart);
    write_large(&chart, 0, &draft, &random);
    dress_leader(draft.file.bytes);
    *records = draft.count;
    free(draft.records);
    chart_free(&chart);
    return draft.file;
}

int main(int words, char **word)
{
    size_t records;
    struct buffer file = write_harbour(&records);
    struct answer answer = reader_judge(file.bytes, file.length, 16 * records);
    if (answer.code != CODE_DONE || file.length > 65536) {
        fprintf(stderr, "make_harbour: judged %u at record %u, offset %u\n", (unsigned)answer.code, (unsigned)answer.record, (unsigned)answer.offset);
        return 1;
    }
    if (words != 2 || !buffer_save(&file, word[1])) {
        fprintf(stderr, "usage: make_harbour FILE\n");
        return 2;
    }
    printf("%zu records, %zu bytes\n", records, file.length);
    buffer_free(&file);
    return 0;
}
