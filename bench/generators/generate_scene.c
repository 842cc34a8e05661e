/* Believable cells: nodes, edges between them, points, lines, areas with holes, soundings and collections, whose topology is right. */
#include "generate_scene.h"

#include <stdlib.h>
#include <string.h>

enum { LABELS = 65536 };

/* ---- numbers and texts */

/* Each way gives every index another id from 1 to 4,294,967,294. */
static uint32_t id_of(enum ids ids, uint32_t index)
{
    const uint64_t ids_in_all = UINT64_C(4294967294), spread = UINT64_C(2654435761);
    switch (ids) {
    case IDS_ASCENDING:
        return index + 1;
    case IDS_DESCENDING:
        return (uint32_t)(ids_in_all - index);
    case IDS_GAPS:
        return index * 7 + 100;
    default:
        return (uint32_t)(index * spread % ids_in_all) + 1;
    }
}

void put_value_text(struct buffer *content, bool high, bool plain, struct random *random)
{
    static const char *const usual[] = {"1", "2", "4,7", "12.5", "Fl R 5s", "Outer Mole Light", "20240131", "", "unknown", "0.3"};
    if (plain || random_one_in(random, 2)) {
        put_text(content, usual[random_below(random, sizeof usual / sizeof usual[0])]);
        return;
    }
    for (uint32_t count = random_below(random, 12); count > 0; count--)
        *buffer_more(content, 1) = (uint8_t)(high && random_one_in(random, 2) ? random_between(random, 0xA0, 0xFF)
                                                                              : random_between(random, 0x20, 0x7E));
    put_text(content, "");
}

/* Labels go up by odd steps from anywhere and wrap round: no two of a list are alike. */
void put_attributes(struct chart_record *record, const char *tag, uint32_t count, bool high, bool plain, struct random *random)
{
    if (count == 0)
        return;
    struct buffer *content = &add_field(record, tag)->content;
    uint32_t label = plain ? random_between(random, 1, 40) : random_below(random, LABELS);
    uint32_t step = plain ? 1 : 2 * random_below(random, LABELS / 2) + 1;
    for (; count > 0; count--, label += step) {
        put_number(content, 2, label % LABELS);
        put_value_text(content, high, plain, random);
    }
}

static uint32_t attributes_wanted(const struct scene *scene)
{
    return random_below(scene->random, scene->style.most_attributes + 1);
}

/* Within the limits, now and then at one of them. */
static int32_t coordinate(const struct scene *scene, int32_t degrees)
{
    int32_t limit = degrees * scene->comf;
    if (!scene->style.plain && random_one_in(scene->random, 12))
        return random_one_in(scene->random, 2) ? limit : -limit;
    int32_t middle = limit / 90 * 53, reach = limit / 180;
    return middle + (int32_t)random_below(scene->random, (uint32_t)reach + 1);
}

static void put_pair(const struct scene *scene, struct buffer *content)
{
    put_number(content, 4, (uint32_t)coordinate(scene, 90));
    put_number(content, 4, (uint32_t)coordinate(scene, 180));
}

/* ---- vectors */

static uint16_t version_of(const struct scene *scene)
{
    static const uint16_t odd[] = {65535, 256, 255, 32768};
    if (scene->style.plain || !random_one_in(scene->random, 8))
        return (uint16_t)random_between(scene->random, 1, 3);
    return odd[random_below(scene->random, sizeof odd / sizeof odd[0])];
}

struct chart_record *new_record(struct record_list *list, const struct scene *scene)
{
    struct chart_record *record = add_record(list);
    put_number(&add_field(record, "0001")->content, 2, (scene->style.plain ? list->count - 1 : random_next(scene->random)) & 0xFFFF);
    return record;
}

static struct chart_record *new_vector(struct scene *scene, enum rank rank, uint8_t class)
{
    struct record_list *list = &scene->rank[rank];
    struct chart_record *record = new_record(list, scene);
    struct buffer *identifier = &add_field(record, "VRID")->content;
    put_number(identifier, 1, class);
    put_number(identifier, 4, id_of(scene->ids, (uint32_t)list->count - 1));
    put_number(identifier, 2, version_of(scene));
    put_number(identifier, 1, 1);
    put_attributes(record, "ATTV", random_one_in(scene->random, 3) ? attributes_wanted(scene) : 0, false, scene->style.plain, scene->random);
    return record;
}

static void add_isolated(struct scene *scene)
{
    put_pair(scene, &add_field(new_vector(scene, ISOLATED, 110), "SG2D")->content);
}

static void add_soundings(struct scene *scene)
{
    struct buffer *content = &add_field(new_vector(scene, ISOLATED, 110), "SG3D")->content;
    for (uint32_t count = random_between(scene->random, 1, scene->style.most_coordinates + 1); count > 0; count--) {
        put_pair(scene, content);
        put_number(content, 4, scene->style.plain ? random_between(scene->random, 5, 400) : random_next(scene->random) & 0xFFFFFFFF);
    }
}

static void add_connected(struct scene *scene)
{
    put_pair(scene, &add_field(new_vector(scene, CONNECTED, 120), "SG2D")->content);
}

static void put_end(const struct scene *scene, struct buffer *content, uint32_t node, uint8_t topology)
{
    put_number(content, 1, 120);
    put_number(content, 4, id_of(scene->ids, node));
    put_number(content, 2, 0xFFFF);
    put_number(content, 1, topology);
    put_number(content, 1, 0xFF);
}

/* An edge between two connected nodes, given by their index; returns its own. */
static uint32_t add_edge(struct scene *scene, uint32_t begin, uint32_t end)
{
    uint32_t index = (uint32_t)scene->rank[EDGE].count;
    struct chart_record *record = new_vector(scene, EDGE, 130);
    bool end_first = !scene->style.plain && random_one_in(scene->random, 4);
    struct buffer *pointers = &add_field(record, "VRPT")->content;
    put_end(scene, pointers, end_first ? end : begin, end_first ? 2 : 1);
    put_end(scene, pointers, end_first ? begin : end, end_first ? 1 : 2);
    uint32_t count = random_below(scene->random, scene->style.most_coordinates + 1);
    if (count > 0) {
        struct buffer *content = &add_field(record, "SG2D")->content;
        for (; count > 0; count--)
            put_pair(scene, content);
    }
    if (index == scene->edge_room) {
        scene->edge_room = 2 * scene->edge_room + 64;
        scene->edge = grow(scene->edge, scene->edge_room, sizeof scene->edge[0]);
    }
    scene->edge[index] = (struct edge_ends){begin, end};
    return index;
}

/* ---- features */

static void put_foid(const struct scene *scene, struct buffer *content, uint32_t feature)
{
    /* several features may have one FOID, as the parts of an object that several cells share */
    uint32_t object = scene->shared_objects ? feature / 2 : feature;
    put_number(content, 2, 540 + object % 3);
    put_number(content, 4, id_of(IDS_SPREAD, object));
    put_number(content, 2, object % 5);
}

static struct chart_record *new_feature(struct scene *scene, uint8_t primitive, uint16_t object)
{
    struct record_list *list = &scene->rank[FEATURE];
    uint32_t index = (uint32_t)list->count;
    struct chart_record *record = new_record(list, scene);
    struct buffer *identifier = &add_field(record, "FRID")->content;
    put_number(identifier, 1, 100);
    put_number(identifier, 4, id_of(scene->ids, index));
    put_number(identifier, 1, primitive);
    put_number(identifier, 1, random_between(scene->random, 1, 3));
    put_number(identifier, 2, object);
    put_number(identifier, 2, version_of(scene));
    put_number(identifier, 1, 1);
    put_foid(scene, &add_field(record, "FOID")->content, index);
    put_attributes(record, "ATTF", attributes_wanted(scene), scene->high_attributes, scene->style.plain, scene->random);
    if (random_one_in(scene->random, 3))
        put_attributes(record, "NATF", attributes_wanted(scene), scene->high_national, scene->style.plain, scene->random);
    return record;
}

static uint16_t any_object(const struct scene *scene)
{
    static const uint16_t ends[] = {1, 299, 300, 399};
    if (random_one_in(scene->random, 8))
        return ends[random_below(scene->random, 4)];
    return (uint16_t)(random_one_in(scene->random, 6) ? random_between(scene->random, 300, 399) : random_between(scene->random, 1, 299));
}

/* Pointers to other features, perhaps to itself. */
static void put_relations(struct scene *scene, struct chart_record *record, uint32_t count)
{
    if (count == 0)
        return;
    struct buffer *content = &add_field(record, "FFPT")->content;
    for (; count > 0; count--) {
        put_foid(scene, content, random_below(scene->random, scene->features));
        put_number(content, 1, random_between(scene->random, 2, 3));
        put_value_text(content, false, scene->style.plain, scene->random);
    }
}

static void put_some_relations(struct scene *scene, struct chart_record *record)
{
    if (random_one_in(scene->random, 4))
        put_relations(scene, record, random_below(scene->random, scene->style.most_relations + 1));
}

static void put_spatial(const struct scene *scene, struct buffer *content, uint8_t class, uint32_t index, uint8_t turn, uint8_t usage,
                        uint8_t mask)
{
    put_number(content, 1, class);
    put_number(content, 4, id_of(scene->ids, index));
    put_number(content, 1, turn);
    put_number(content, 1, usage);
    put_number(content, 1, mask);
}

static uint8_t one_or_two(const struct scene *scene)
{
    return (uint8_t)random_between(scene->random, 1, 2);
}

static void add_point(struct scene *scene)
{
    struct chart_record *record = new_feature(scene, 1, any_object(scene));
    put_some_relations(scene, record);
    enum rank rank = random_one_in(scene->random, 3) ? CONNECTED : ISOLATED;
    if (scene->rank[rank].count == 0)
        rank = CONNECTED;
    uint32_t index = random_below(scene->random, (uint32_t)scene->rank[rank].count);
    put_spatial(scene, &add_field(record, "FSPT")->content, rank == ISOLATED ? 110 : 120, index, 255, 255, 255);
}

static uint32_t any_node(const struct scene *scene)
{
    return random_below(scene->random, (uint32_t)scene->rank[CONNECTED].count);
}

/* An edge from one node to another, whichever way it runs: one of a few held ones that are tried, or a new one. */
static uint32_t edge_between(struct scene *scene, uint32_t from, uint32_t to)
{
    uint32_t held = (uint32_t)scene->rank[EDGE].count;
    for (uint32_t tries = held < 8 ? held : 8; tries > 0; tries--) {
        uint32_t index = random_below(scene->random, held);
        const struct edge_ends *edge = &scene->edge[index];
        if ((edge->begin == from && edge->end == to) || (edge->begin == to && edge->end == from))
            return index;
    }
    return random_one_in(scene->random, 2) ? add_edge(scene, from, to) : add_edge(scene, to, from);
}

static void add_line(struct scene *scene)
{
    struct chart_record *record = new_feature(scene, 2, any_object(scene));
    put_some_relations(scene, record);
    struct buffer *content = &add_field(record, "FSPT")->content;
    for (uint32_t count = random_between(scene->random, 1, scene->style.longest_ring); count > 0; count--) {
        uint32_t edge = edge_between(scene, any_node(scene), any_node(scene));
        put_spatial(scene, content, 130, edge, one_or_two(scene), 255, one_or_two(scene));
    }
}

/* ---- areas */

static void put_ring_edge(const struct scene *scene, struct buffer *content, uint32_t edge, uint32_t from, bool exterior)
{
    const struct edge_ends *ends = &scene->edge[edge];
    bool loop = ends->begin == ends->end;
    uint8_t turn = loop ? one_or_two(scene) : ends->begin == from ? 1 : 2;
    uint8_t usage = !exterior ? 2 : random_one_in(scene->random, 4) ? 3 : 1;
    put_spatial(scene, content, 130, edge, turn, usage, usage == 3 ? 255 : one_or_two(scene));
}

/* A walk of `steps` edges that comes back to its start at the last of them and not before; it may pass other nodes more than once. */
static void put_ring(struct scene *scene, struct buffer *content, uint32_t steps, bool exterior)
{
    uint32_t start = any_node(scene), from = start;
    if (scene->rank[CONNECTED].count < 2)
        steps = 1;
    for (; steps > 0; steps--) {
        uint32_t to = start;
        while (steps > 1 && to == start)
            to = any_node(scene);
        put_ring_edge(scene, content, edge_between(scene, from, to), from, exterior);
        from = to;
    }
}

/* Out along an edge and back along it: a ring, if a flat one. */
static void put_flat_ring(struct scene *scene, struct buffer *content, bool exterior)
{
    uint32_t edge = random_below(scene->random, (uint32_t)scene->rank[EDGE].count);
    struct edge_ends ends = scene->edge[edge];
    put_ring_edge(scene, content, edge, ends.begin, exterior);
    if (ends.begin != ends.end)
        put_ring_edge(scene, content, edge, ends.end, exterior);
}

static void put_any_ring(struct scene *scene, struct buffer *content, bool exterior)
{
    if (scene->rank[EDGE].count > 0 && random_one_in(scene->random, 12))
        put_flat_ring(scene, content, exterior);
    else
        put_ring(scene, content, random_between(scene->random, 1, scene->style.longest_ring), exterior);
}

static void add_area(struct scene *scene)
{
    struct chart_record *record = new_feature(scene, 3, any_object(scene));
    put_some_relations(scene, record);
    struct buffer *content = &add_field(record, "FSPT")->content;
    put_any_ring(scene, content, true);
    for (uint32_t holes = random_below(scene->random, scene->style.most_holes + 1); holes > 0; holes--)
        put_any_ring(scene, content, false);
}

static void add_collection(struct scene *scene)
{
    struct chart_record *record = new_feature(scene, 255, (uint16_t)random_between(scene->random, 400, 401));
    put_relations(scene, record, random_below(scene->random, scene->style.most_relations + 1));
}

/* ---- the records before them */

static void put_date(struct buffer *content, bool plain, struct random *random)
{
    static const char *const dates[] = {"20240229", "20231231", "00010101", "20000229", "99991231", "19990430", "00040229", "18000228"};
    buffer_put(content, dates[plain ? 1 : random_below(random, sizeof dates / sizeof dates[0])], 8);
}

void put_data_set(struct chart_record *record, const struct data_set *set, struct random *random)
{
    struct buffer *content = &add_field(record, "DSID")->content;
    put_number(content, 1, 10);
    put_number(content, 4, set->plain ? 1 : id_of(IDS_SPREAD, random_below(random, 1000)));
    put_number(content, 1, set->update ? 2 : 1);
    put_number(content, 1, (uint64_t)(set->name[2] - '0'));
    put_text(content, set->name);
    put_text(content, set->edition);
    put_text(content, set->number);
    if (set->update && !set->plain)
        buffer_put(content, random_one_in(random, 2) ? "        " : "2023~~!!", 8);
    else
        put_date(content, set->plain, random);
    put_date(content, set->plain, random);
    buffer_put(content, "03.1", 4);
    put_number(content, 1, 1);
    put_text(content, "");
    put_text(content, "2.0");
    put_number(content, 1, set->update ? 2 : 1);
    put_number(content, 2, set->plain ? 540 : random_next(random) & 0xFFFF);
    put_value_text(content, false, set->plain, random);
}

void put_structure(struct chart_record *record, bool high_attributes, bool high_national)
{
    struct buffer *content = &add_field(record, "DSSI")->content;
    put_number(content, 1, 2);
    put_number(content, 1, high_attributes);
    put_number(content, 1, high_national);
    for (unsigned i = 0; i < 8; i++)
        put_number(content, 4, 0);
}

static void put_parameters(const struct scene *scene, struct chart_record *record)
{
    struct buffer *content = &add_field(record, "DSPM")->content;
    bool plain = scene->style.plain;
    put_number(content, 1, 20);
    put_number(content, 4, plain ? 1 : UINT64_C(4294967294));
    put_number(content, 1, 2);
    put_number(content, 2, plain ? 0x1717 : random_next(scene->random) & 0xFFFF);
    put_number(content, 4, plain ? 12500 : random_next(scene->random) & 0xFFFFFFFF);
    put_number(content, 4, 0x01010101);
    put_number(content, 4, (uint32_t)scene->comf);
    put_number(content, 4, 10);
    put_value_text(content, false, plain, scene->random);
}

static void put_header(const struct scene *scene, struct chart *chart)
{
    static const char *const editions[] = {"1", "12", "9999", "0001", "007", "10"}, *const numbers[] = {"0", "7", "000", "999", "05", "63"};
    struct data_set set = {.name = "GB5X01NE.000", .plain = scene->style.plain};
    set.edition = editions[set.plain ? 0 : random_below(scene->random, 6)];
    set.number = numbers[set.plain ? 0 : random_below(scene->random, 6)];
    if (!set.plain)
        set.name[2] = (char)('0' + random_between(scene->random, 1, 6));
    struct chart_record *record = new_record(&chart->list, scene);
    put_data_set(record, &set, scene->random);
    put_structure(record, scene->high_attributes, scene->high_national);
    put_parameters(scene, new_record(&chart->list, scene));
}

/* ---- the cell */

static void add_features(struct scene *scene)
{
    struct scene_style left = scene->style;
    /* the kinds by turns, so that a short cell has each */
    while (left.points + left.lines + left.areas + left.collections > 0) {
        if (left.points > 0 && left.points--)
            add_point(scene);
        if (left.lines > 0 && left.lines--)
            add_line(scene);
        if (left.areas > 0 && left.areas--)
            add_area(scene);
        if (left.collections > 0 && left.collections--)
            add_collection(scene);
    }
}

static void fill_scene(struct scene *scene)
{
    const struct scene_style *style = &scene->style;
    for (uint32_t i = 0; i < style->isolated; i++)
        add_isolated(scene);
    for (uint32_t i = 0; i < style->soundings; i++)
        add_soundings(scene);
    for (uint32_t i = 0; i < style->connected; i++)
        add_connected(scene);
    for (uint32_t i = 0; i < style->edges && style->connected > 0; i++)
        add_edge(scene, any_node(scene), any_node(scene));
    scene->features = style->points + style->lines + style->areas + style->collections;
    add_features(scene);
}

static void shuffle(struct chart_record *record, size_t count, struct random *random)
{
    for (; count > 1; count--) {
        size_t at = random_below(random, (uint32_t)count);
        struct chart_record last = record[count - 1];
        record[count - 1] = record[at];
        record[at] = last;
    }
}

/* Moves the records of all ranks behind the header's. */
static void gather(struct scene *scene, struct chart *chart)
{
    size_t from = chart->list.count, vectors = 0;
    for (enum rank rank = ISOLATED; rank < RANKS; rank++) {
        struct record_list *list = &scene->rank[rank];
        for (size_t i = 0; i < list->count; i++)
            *add_record(&chart->list) = list->record[i];
        free(list->record);
        vectors += rank == FEATURE ? 0 : list->count;
    }
    if (scene->style.shuffled) {
        shuffle(chart->list.record + from, vectors, scene->random);
        shuffle(chart->list.record + from + vectors, chart->list.count - from - vectors, scene->random);
    }
    free(scene->edge);
}

struct chart make_cell(const struct scene_style *style, struct random *random)
{
    static const int32_t factors[] = {10000000, 10000000, 1000000, 100, 7, 1};
    struct chart chart = {0};
    struct scene scene = {.style = *style, .random = random, .comf = 10000000};
    add_record(&chart.list);
    if (!style->plain) {
        scene.ids = (enum ids)random_below(random, 4);
        scene.high_attributes = random_one_in(random, 2);
        scene.high_national = random_one_in(random, 2);
        scene.shared_objects = random_one_in(random, 3);
        scene.comf = factors[random_below(random, sizeof factors / sizeof factors[0])];
    }
    put_header(&scene, &chart);
    fill_scene(&scene);
    gather(&scene, &chart);
    count_records(&chart);
    return chart;
}

/* From an empty cell to some hundred records. */
struct scene_style scene_style_of(struct random *random)
{
    struct scene_style style = {.longest_ring = 6, .most_holes = 2, .most_coordinates = 4, .most_attributes = 4, .most_relations = 3};
    style.shuffled = random_one_in(random, 2);
    style.plain = random_one_in(random, 4);
    if (random_one_in(random, 16))
        return style;
    style.isolated = random_between(random, 1, 5);
    style.soundings = random_below(random, 4);
    style.connected = random_between(random, 1, 8);
    style.edges = random_below(random, 6);
    if (random_one_in(random, 16))
        return style;
    style.points = random_below(random, 4);
    style.lines = random_below(random, 4);
    style.areas = random_between(random, 1, 4);
    style.collections = random_below(random, 3);
    return style;
}

struct scene_style larger_style_of(struct random *random)
{
    struct scene_style style = scene_style_of(random);
    uint32_t times = random_between(random, 2, 7);
    style.isolated *= times;
    style.connected *= times;
    style.edges *= times;
    style.points *= times;
    style.lines *= times;
    style.areas *= times;
    style.collections *= times;
    style.most_coordinates = random_between(random, 4, 120);
    style.most_attributes = random_between(random, 4, 20);
    style.most_relations = random_between(random, 3, 12);
    return style;
}
