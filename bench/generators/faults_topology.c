/* The section "Topology" broken in a cell: codes 17 to 19. The record of such a fault is the item's place in held order. Every way here is wrong
   for certain, and leaves all items before that place right. */
#include "generate_judge.h"

#include <stdlib.h>
#include <string.h>

enum { FIRST_PLACE = 3, VRPT_SIZE = 9, FSPT_SIZE = 8 };

/* ---- held order */

static unsigned rank_of(const struct chart_record *record)
{
    uint8_t class = record->field[1].content.bytes[0];
    return class == 110 ? 0 : class == 120 ? 1 : class == 130 ? 2 : 3;
}

static uint64_t id_of_record(const struct chart_record *record)
{
    return get_number(record->field[1].content.bytes + 1, 4);
}

/* The place in held order of a cell's record. */
static size_t held_place(const struct chart *chart, size_t index)
{
    const struct chart_record *item = &chart->list.record[index];
    size_t place = FIRST_PLACE;
    for (size_t i = FIRST_PLACE; i < chart->list.count; i++) {
        const struct chart_record *other = &chart->list.record[i];
        unsigned left = rank_of(other), right = rank_of(item);
        place += left < right || (left == right && id_of_record(other) < id_of_record(item));
    }
    return place;
}

static bool wrong_item(struct fault *fault, const struct chart *chart, uint32_t code, size_t index)
{
    *fault = (struct fault){.code = code, .record = held_place(chart, index), .spot = AT_RECORD};
    return true;
}

/* ---- picking */

struct pick {
    struct random *random;
    uint32_t met;
    size_t chosen;
};

/* Offers a record to the choice: all that are offered are as likely. */
static void offer(struct pick *pick, size_t index)
{
    if (random_one_in(pick->random, ++pick->met))
        pick->chosen = index;
}

static bool pick_class(const struct chart *chart, uint8_t class, struct random *random, size_t *index)
{
    struct pick pick = {.random = random};
    for (size_t i = FIRST_PLACE; i < chart->list.count; i++)
        if (chart->list.record[i].field[1].content.bytes[0] == class)
            offer(&pick, i);
    *index = pick.chosen;
    return pick.met > 0;
}

static bool pick_primitive(const struct chart *chart, uint8_t primitive, struct random *random, size_t *index)
{
    struct pick pick = {.random = random};
    for (size_t i = FIRST_PLACE; i < chart->list.count; i++) {
        const uint8_t *identifier = chart->list.record[i].field[1].content.bytes;
        if (identifier[0] == 100 && identifier[5] == primitive)
            offer(&pick, i);
    }
    *index = pick.chosen;
    return pick.met > 0;
}

static struct chart_record *record_at(const struct chart *chart, size_t index)
{
    return &chart->list.record[index];
}

static void remove_list(struct chart_record *record, const char *tag)
{
    for (size_t at; (at = find_field(record, tag)) < record->count;)
        remove_field(record, at);
}

/* The content of a list, or null where it has fewer bytes. Parts that stand in several fields are joined, so that entries can be counted
   through. */
static struct buffer *list_of(const struct chart *chart, size_t index, const char *tag, size_t least)
{
    struct chart_record *record = record_at(chart, index);
    size_t first = find_field(record, tag);
    while (first + 1 < record->count && has_tag(&record->field[first + 1], tag)) {
        struct buffer *more = &record->field[first + 1].content;
        buffer_put(&record->field[first].content, more->bytes, more->length);
        remove_field(record, first + 1);
    }
    return first < record->count && record->field[first].content.length >= least ? &record->field[first].content : NULL;
}

static struct buffer *ends_of(const struct chart *chart, size_t index)
{
    return list_of(chart, index, "VRPT", 2 * VRPT_SIZE);
}

static struct buffer *spatial_of(const struct chart *chart, size_t index)
{
    return list_of(chart, index, "FSPT", FSPT_SIZE);
}

/* Any entry of a spatial list. */
static uint8_t *any_spatial(const struct buffer *content, struct random *random)
{
    return content->bytes + FSPT_SIZE * random_below(random, (uint32_t)(content->length / FSPT_SIZE));
}

static uint8_t one_of(const uint8_t *values, size_t count, struct random *random)
{
    return values[random_below(random, (uint32_t)count)];
}

/* ---- Shape: coordinates */

/* `way` is 0 for Y and 1 for X. */
static bool break_limit(struct chart *chart, size_t way, struct random *random, struct fault *fault)
{
    size_t record, at;
    if (!pick_field(chart, random_one_in(random, 2) ? "SG2D" : "SG3D", random, &record, &at))
        return false;
    struct chart_field *field = &record_at(chart, record)->field[at];
    const struct chart_field *parameters = &record_at(chart, 2)->field[1];
    int64_t comf = (int64_t)get_number(parameters->content.bytes + subfield_place(parameters, 0, "COMF").start, 4);
    int64_t limit = (way == 0 ? 90 : 180) * comf, beyond[] = {limit + 1, limit * 2, INT32_MAX, limit + 256};
    int64_t value = beyond[random_below(random, 4)];
    /* also what would do for the other of the two */
    value = way == 0 && random_one_in(random, 3) ? 180 * comf : value;
    value = value > INT32_MAX ? INT32_MAX : value;
    size_t entry = entry_place(field, random_below(random, (uint32_t)count_entries(field))).start;
    set_number(field->content.bytes + entry + 4 * way, 4, (uint64_t)(random_one_in(random, 2) ? value : -value - (value == INT32_MAX)));
    return wrong_item(fault, chart, CODE_SHAPE, record);
}

static void put_pairs(struct chart_record *record, const char *tag, unsigned size, uint32_t count)
{
    struct buffer *content = &add_field(record, tag)->content;
    memset(buffer_more(content, (size_t)size * count), 0, (size_t)size * count);
}

/* Lists of coordinates that a node may not have. */
static bool break_node(struct chart *chart, size_t way, struct random *random, struct fault *fault)
{
    size_t index;
    bool isolated = way == 0;
    if (!pick_class(chart, isolated ? 110 : 120, random, &index))
        return false;
    struct chart_record *record = record_at(chart, index);
    remove_list(record, "SG2D");
    remove_list(record, "SG3D");
    switch (random_below(random, isolated ? 2 : 4)) {
    case 0:
        break;
    case 1:
        put_pairs(record, "SG2D", 8, random_between(random, 2, 4));
        break;
    case 2:
        put_pairs(record, "SG3D", 12, 1);
        break;
    default:
        put_pairs(record, "SG3D", 12, 3);
    }
    return wrong_item(fault, chart, CODE_SHAPE, index);
}

/* Pairs split over two fields are as many as in one. */
static bool break_node_split(struct chart *chart, size_t way, struct random *random, struct fault *fault)
{
    size_t index;
    if (!pick_class(chart, way == 0 ? 110 : 120, random, &index))
        return false;
    struct chart_record *record = record_at(chart, index);
    if (find_field(record, "SG2D") == record->count)
        return false;
    put_pairs(record, "SG2D", 8, 1);
    return wrong_item(fault, chart, CODE_SHAPE, index);
}

static bool break_edge_soundings(struct chart *chart, size_t way, struct random *random, struct fault *fault)
{
    size_t index;
    (void)way;
    if (!pick_class(chart, 130, random, &index))
        return false;
    remove_list(record_at(chart, index), "SG2D");
    put_pairs(record_at(chart, index), "SG3D", 12, random_between(random, 1, 3));
    return wrong_item(fault, chart, CODE_SHAPE, index);
}

/* ---- Shape: VRPT */

static bool break_node_pointer(struct chart *chart, size_t way, struct random *random, struct fault *fault)
{
    size_t index, edge;
    if (!pick_class(chart, way == 0 ? 110 : 120, random, &index) || !pick_class(chart, 130, random, &edge))
        return false;
    struct buffer *from = ends_of(chart, edge);
    if (from == NULL)
        return false;
    struct chart_record *record = record_at(chart, index);
    size_t at = 2;
    while (at < record->count && has_tag(&record->field[at], "ATTV"))
        at++;
    buffer_put(&insert_field(record, at, "VRPT")->content, from->bytes, random_one_in(random, 2) ? VRPT_SIZE : 2 * VRPT_SIZE);
    return wrong_item(fault, chart, CODE_SHAPE, index);
}

/* Another number of pointers than two. */
static bool break_end_count(struct chart *chart, size_t way, struct random *random, struct fault *fault)
{
    size_t index;
    (void)way;
    if (!pick_class(chart, 130, random, &index))
        return false;
    struct chart_record *record = record_at(chart, index);
    struct buffer *content = ends_of(chart, index);
    if (content == NULL)
        return false;
    switch (random_below(random, 4)) {
    case 0:
        remove_list(record, "VRPT");
        break;
    case 1:
        content->length -= VRPT_SIZE;
        break;
    case 2:
        buffer_remove(content, 0, VRPT_SIZE);
        break;
    default: {
        uint8_t *more = buffer_more(content, VRPT_SIZE);
        memcpy(more, content->bytes + VRPT_SIZE * random_below(random, 2), VRPT_SIZE);
        more[7] = (uint8_t)random_between(random, 1, 3);
    }
    }
    return wrong_item(fault, chart, CODE_SHAPE, index);
}

/* A byte of a pointer that must be something else. `way` is its place in the entry. */
static bool break_end_byte(struct chart *chart, size_t way, struct random *random, struct fault *fault)
{
    static const uint8_t classes[] = {110, 130, 100, 0, 121, 255, 10, 20}, others[] = {0, 1, 2, 3, 254, 128};
    size_t index;
    if (!pick_class(chart, 130, random, &index))
        return false;
    struct buffer *content = ends_of(chart, index);
    if (content == NULL)
        return false;
    uint8_t *entry = content->bytes + VRPT_SIZE * random_below(random, 2);
    switch (way) {
    case 0:
        entry[0] = one_of(classes, sizeof classes, random);
        break;
    case 7: {
        /* none, or twice the same end */
        const uint8_t wrong[] = {0, 3, 255, 4, (uint8_t)(3 - entry[7]), (uint8_t)(3 - entry[7])};
        entry[7] = one_of(wrong, sizeof wrong, random);
        break;
    }
    default:
        entry[way] = one_of(others, sizeof others, random);
    }
    return wrong_item(fault, chart, CODE_SHAPE, index);
}

/* ---- Shape: features */

/* A feature of one primitive given no spatial pointer, or one more than it may have. */
static bool break_spatial_count(struct chart *chart, size_t way, struct random *random, struct fault *fault)
{
    size_t index;
    uint8_t primitive = (uint8_t)(way + 1);
    if (!pick_primitive(chart, primitive, random, &index))
        return false;
    struct chart_record *record = record_at(chart, index);
    struct buffer *content = spatial_of(chart, index);
    if (content == NULL)
        return false;
    if (primitive == 1 && random_one_in(random, 2)) {
        uint8_t *more = buffer_more(content, FSPT_SIZE);
        memcpy(more, content->bytes, FSPT_SIZE);
    } else {
        remove_list(record, "FSPT");
    }
    return wrong_item(fault, chart, CODE_SHAPE, index);
}

/* What each byte of a spatial pointer may not be, by primitive: class, ORNT, USAG, MASK. */
static const struct spatial_byte {
    uint8_t primitive, at, values[8];
    size_t count;
} spatial_bytes[] = {
    {1, 0, {130, 100, 0, 111, 255, 10}, 6},
    {1, 5, {0, 1, 2, 254}, 4},
    {1, 6, {0, 1, 2, 3, 254}, 5},
    {1, 7, {0, 1, 2, 254}, 4},
    {2, 0, {110, 120, 100, 0, 255, 131}, 6},
    {2, 5, {0, 3, 255, 254, 129}, 5},
    {2, 6, {0, 1, 2, 3, 254}, 5},
    {2, 7, {0, 3, 255, 254}, 4},
    {3, 0, {110, 120, 100, 0, 255, 129}, 6},
    {3, 5, {0, 3, 255, 254}, 4},
    {3, 6, {0, 4, 255, 254}, 4},
    {3, 7, {0, 3, 254, 128}, 4},
};

static bool break_spatial_byte(struct chart *chart, size_t way, struct random *random, struct fault *fault)
{
    const struct spatial_byte *wrong = &spatial_bytes[way];
    size_t index;
    if (!pick_primitive(chart, wrong->primitive, random, &index))
        return false;
    struct buffer *content = spatial_of(chart, index);
    if (content == NULL)
        return false;
    uint8_t *entry = any_spatial(content, random);
    entry[wrong->at] = one_of(wrong->values, wrong->count, random);
    return wrong_item(fault, chart, CODE_SHAPE, index);
}

/* MASK not 255 though USAG is 3, or 255 though it isn't. */
static bool break_area_mask(struct chart *chart, size_t way, struct random *random, struct fault *fault)
{
    size_t index;
    (void)way;
    if (!pick_primitive(chart, 3, random, &index))
        return false;
    struct buffer *content = spatial_of(chart, index);
    if (content == NULL)
        return false;
    uint8_t *entry = any_spatial(content, random);
    entry[7] = entry[6] == 3 ? (uint8_t)random_between(random, 1, 2) : 255;
    return wrong_item(fault, chart, CODE_SHAPE, index);
}

/* PRIM 255 and the two collection classes belong together. */
static bool break_collection(struct chart *chart, size_t way, struct random *random, struct fault *fault)
{
    size_t index;
    bool collection = random_one_in(random, 2);
    (void)way;
    if (!pick_primitive(chart, collection ? 255 : (uint8_t)random_between(random, 1, 3), random, &index))
        return false;
    uint8_t *identifier = record_at(chart, index)->field[1].content.bytes;
    if (random_one_in(random, 2))
        set_number(identifier + 7, 2, collection ? random_between(random, 1, 399) : random_between(random, 400, 401));
    else
        identifier[5] = collection ? (uint8_t)random_between(random, 1, 3) : 255;
    count_records(chart);
    return wrong_item(fault, chart, CODE_SHAPE, index);
}

static bool break_collection_spatial(struct chart *chart, size_t way, struct random *random, struct fault *fault)
{
    size_t index, other;
    (void)way;
    if (!pick_primitive(chart, 255, random, &index) || !pick_primitive(chart, (uint8_t)random_between(random, 1, 3), random, &other))
        return false;
    struct buffer *from = spatial_of(chart, other);
    if (from == NULL)
        return false;
    buffer_put(&add_field(record_at(chart, index), "FSPT")->content, from->bytes, FSPT_SIZE);
    return wrong_item(fault, chart, CODE_SHAPE, index);
}

/* ---- Pointer */

static bool has_name(const struct chart *chart, uint8_t class, uint64_t id)
{
    for (size_t i = FIRST_PLACE; i < chart->list.count; i++)
        if (record_at(chart, i)->field[1].content.bytes[0] == class && id_of_record(record_at(chart, i)) == id)
            return true;
    return false;
}

/* Gives a pointer's NAME an id that its class hasn't; one that another class has, if there is such. */
static void spoil_name(const struct chart *chart, uint8_t *name, struct random *random)
{
    uint64_t id;
    do {
        size_t any = random_between(random, FIRST_PLACE, (uint32_t)chart->list.count - 1);
        switch (random_below(random, 4)) {
        case 0:
            id = get_number(name + 1, 4) + 1;
            break;
        case 1:
            id = id_of_record(record_at(chart, any));
            break;
        case 2:
            id = random_one_in(random, 2) ? 0 : UINT32_MAX;
            break;
        default:
            id = random_next(random) & UINT32_MAX;
        }
    } while (has_name(chart, name[0], id & UINT32_MAX));
    set_number(name + 1, 4, id);
}

static bool break_edge_name(struct chart *chart, size_t way, struct random *random, struct fault *fault)
{
    size_t index;
    (void)way;
    if (!pick_class(chart, 130, random, &index))
        return false;
    struct buffer *content = ends_of(chart, index);
    if (content == NULL)
        return false;
    spoil_name(chart, content->bytes + VRPT_SIZE * random_below(random, 2), random);
    return wrong_item(fault, chart, CODE_POINTER, index);
}

static bool break_spatial_name(struct chart *chart, size_t way, struct random *random, struct fault *fault)
{
    size_t index;
    if (!pick_primitive(chart, (uint8_t)(way + 1), random, &index))
        return false;
    struct buffer *content = spatial_of(chart, index);
    if (content == NULL)
        return false;
    spoil_name(chart, any_spatial(content, random), random);
    return wrong_item(fault, chart, CODE_POINTER, index);
}

static bool has_object(const struct chart *chart, uint64_t object)
{
    for (size_t i = FIRST_PLACE; i < chart->list.count; i++)
        if (has_tag(&record_at(chart, i)->field[1], "FRID") && get_number(record_at(chart, i)->field[2].content.bytes, 8) == object)
            return true;
    return false;
}

static bool break_relation(struct chart *chart, size_t way, struct random *random, struct fault *fault)
{
    size_t record, at;
    (void)way;
    if (!pick_field(chart, "FFPT", random, &record, &at))
        return false;
    struct chart_field *field = &record_at(chart, record)->field[at];
    uint8_t *object = field->content.bytes + entry_place(field, random_below(random, (uint32_t)count_entries(field))).start;
    uint8_t kept[8];
    memcpy(kept, object, sizeof kept);
    do {
        memcpy(object, kept, sizeof kept);
        object[random_below(random, 8)] ^= (uint8_t)(1u << random_below(random, 8));
    } while (has_object(chart, get_number(object, 8)));
    return wrong_item(fault, chart, CODE_POINTER, record);
}

/* Whether a record's list of that tag and entry size names a record. */
static bool names(const struct chart_record *record, const char *tag, size_t size, uint64_t name)
{
    for (size_t i = 0; i < record->count; i++)
        for (size_t at = 0; has_tag(&record->field[i], tag) && at < record->field[i].content.length; at += size)
            if (get_number(record->field[i].content.bytes + at, 5) == name)
                return true;
    return false;
}

/* A vector goes: the first item in held order that names it is wrong. */
static bool break_vector_gone(struct chart *chart, size_t way, struct random *random, struct fault *fault)
{
    static const uint8_t classes[] = {110, 120, 130};
    size_t gone, first = SIZE_MAX;
    if (!pick_class(chart, classes[way], random, &gone))
        return false;
    uint64_t name = get_number(record_at(chart, gone)->field[1].content.bytes, 5);
    remove_record(&chart->list, gone);
    count_records(chart);
    for (size_t i = FIRST_PLACE; i < chart->list.count; i++) {
        if (!names(record_at(chart, i), "VRPT", VRPT_SIZE, name) && !names(record_at(chart, i), "FSPT", FSPT_SIZE, name))
            continue;
        size_t place = held_place(chart, i);
        first = place < first ? place : first;
    }
    *fault = (struct fault){.code = CODE_POINTER, .record = first, .spot = AT_RECORD};
    return first != SIZE_MAX;
}

/* ---- Ring */

struct ring_edge {
    uint64_t from, to;
};

/* The two nodes of an edge, as an entry of FSPT runs along it. */
static struct ring_edge run_along(const struct chart *chart, const uint8_t *entry)
{
    struct ring_edge run = {0, 0};
    for (size_t i = FIRST_PLACE; i < chart->list.count; i++) {
        const struct chart_record *record = record_at(chart, i);
        if (get_number(record->field[1].content.bytes, 5) != get_number(entry, 5))
            continue;
        for (size_t j = 2; j < record->count; j++)
            for (size_t at = 0; has_tag(&record->field[j], "VRPT") && at < record->field[j].content.length; at += VRPT_SIZE) {
                const uint8_t *end = record->field[j].content.bytes + at;
                *((end[7] == 1) == (entry[5] == 1) ? &run.from : &run.to) = get_number(end + 1, 4);
            }
    }
    return run;
}

static bool is_loop(const struct chart *chart, const uint8_t *entry)
{
    struct ring_edge run = run_along(chart, entry);
    return run.from == run.to;
}

/* Whether entry `wanted` of an area's list begins a ring. */
static bool begins_ring(const struct chart *chart, const struct buffer *content, size_t wanted)
{
    bool begins = true;
    uint64_t start = 0;
    for (size_t i = 0; i < wanted; i++) {
        struct ring_edge run = run_along(chart, content->bytes + FSPT_SIZE * i);
        start = begins ? run.from : start;
        begins = run.to == start;
    }
    return begins;
}

struct area {
    size_t index;
    struct buffer *content;
    size_t edges;
};

static bool pick_area(struct chart *chart, struct random *random, struct area *area)
{
    if (!pick_primitive(chart, 3, random, &area->index))
        return false;
    area->content = spatial_of(chart, area->index);
    if (area->content == NULL)
        return false;
    area->edges = area->content->length / FSPT_SIZE;
    return true;
}

static uint8_t *edge_of(const struct area *area, size_t at)
{
    return area->content->bytes + FSPT_SIZE * at;
}

/* An edge run along the other way, unless that is the same. */
static bool break_turn(struct chart *chart, size_t way, struct random *random, struct fault *fault)
{
    struct area area;
    (void)way;
    if (!pick_area(chart, random, &area))
        return false;
    uint8_t *entry = edge_of(&area, random_below(random, (uint32_t)area.edges));
    if (is_loop(chart, entry))
        return false;
    entry[5] = (uint8_t)(3 - entry[5]);
    return wrong_item(fault, chart, CODE_RING, area.index);
}

/* The last ring loses its last edge. */
static bool break_open_ring(struct chart *chart, size_t way, struct random *random, struct fault *fault)
{
    struct area area;
    (void)way;
    if (!pick_area(chart, random, &area) || begins_ring(chart, area.content, area.edges - 1))
        return false;
    area.content->length -= FSPT_SIZE;
    return wrong_item(fault, chart, CODE_RING, area.index);
}

/* One edge more after the last ring: it opens a ring that nothing closes or, being a loop, an exterior after the first. */
static bool break_edge_more(struct chart *chart, size_t way, struct random *random, struct fault *fault)
{
    struct area area;
    (void)way;
    if (!pick_area(chart, random, &area))
        return false;
    uint8_t entry[FSPT_SIZE];
    memcpy(entry, edge_of(&area, random_below(random, (uint32_t)area.edges)), sizeof entry);
    if (is_loop(chart, entry)) {
        entry[6] = (uint8_t)(random_one_in(random, 2) ? 1 : 3);
        entry[7] = entry[6] == 3 ? 255 : 1;
    }
    buffer_put(area.content, entry, sizeof entry);
    return wrong_item(fault, chart, CODE_RING, area.index);
}

/* Two edges within a ring exchanged: the later one starts elsewhere than the earlier. */
static bool break_order(struct chart *chart, size_t way, struct random *random, struct fault *fault)
{
    struct area area;
    (void)way;
    if (!pick_area(chart, random, &area) || area.edges < 2)
        return false;
    size_t at = random_below(random, (uint32_t)area.edges - 1);
    uint8_t *left = edge_of(&area, at), *right = edge_of(&area, at + 1), kept[FSPT_SIZE];
    if (begins_ring(chart, area.content, at) || is_loop(chart, left) || begins_ring(chart, area.content, at + 1))
        return false;
    memcpy(kept, left, sizeof kept);
    memcpy(left, right, sizeof kept);
    memcpy(right, kept, sizeof kept);
    return wrong_item(fault, chart, CODE_RING, area.index);
}

/* USAG of another ring than the edge's own: 2 in the first, 1 or 3 in a later one. */
static bool break_usage(struct chart *chart, size_t way, struct random *random, struct fault *fault)
{
    struct area area;
    if (!pick_area(chart, random, &area))
        return false;
    uint8_t *entry = edge_of(&area, random_below(random, (uint32_t)area.edges));
    bool exterior = entry[6] != 2;
    if (exterior != (way == 0))
        return false;
    entry[6] = exterior ? 2 : random_one_in(random, 2) ? 1 : 3;
    entry[7] = entry[6] == 3 ? 255 : 1;
    return wrong_item(fault, chart, CODE_RING, area.index);
}

/* The area that stands first in held order of those that have the edge of this name. */
static bool first_area(struct chart *chart, uint64_t name, struct area *area)
{
    size_t first = SIZE_MAX;
    for (size_t i = FIRST_PLACE; i < chart->list.count; i++) {
        struct chart_record *record = record_at(chart, i);
        const uint8_t *identifier = record->field[1].content.bytes;
        if (identifier[0] != 100 || identifier[5] != 3 || !names(record, "FSPT", FSPT_SIZE, name) || held_place(chart, i) >= first)
            continue;
        first = held_place(chart, i);
        area->index = i;
        area->content = spatial_of(chart, i);
        area->edges = area->content->length / FSPT_SIZE;
    }
    return first != SIZE_MAX;
}

/* An edge's two ends exchanged: the first area that has it is wrong, unless it has it forth and back, or the edge is a loop. */
static bool break_ends_exchanged(struct chart *chart, size_t way, struct random *random, struct fault *fault)
{
    struct area area = {0};
    size_t edge, used = 0;
    (void)way;
    if (!pick_class(chart, 130, random, &edge))
        return false;
    uint64_t name = get_number(record_at(chart, edge)->field[1].content.bytes, 5);
    if (!first_area(chart, name, &area))
        return false;
    for (size_t at = 0; at < area.edges; at++) {
        bool same = get_number(edge_of(&area, at), 5) == name;
        used += same;
        if (same && is_loop(chart, edge_of(&area, at)))
            return false;
    }
    struct buffer *content = ends_of(chart, edge);
    if (content == NULL)
        return false;
    uint8_t *ends = content->bytes, kept = ends[7];
    ends[7] = ends[7 + VRPT_SIZE];
    ends[7 + VRPT_SIZE] = kept;
    return wrong_item(fault, chart, CODE_RING, area.index) && used == 1;
}

static const struct chart_rule rules[] = {
    {"shape: Y beyond its limit", break_limit, 0, IN_CELL},
    {"shape: X beyond its limit", break_limit, 1, IN_CELL},
    {"shape: isolated node's coordinates", break_node, 0, IN_CELL},
    {"shape: connected node's coordinates", break_node, 1, IN_CELL},
    {"shape: isolated node's pairs in two fields", break_node_split, 0, IN_CELL},
    {"shape: connected node's pairs in two fields", break_node_split, 1, IN_CELL},
    {"shape: soundings on an edge", break_edge_soundings, 0, IN_CELL},
    {"shape: VRPT on an isolated node", break_node_pointer, 0, IN_CELL},
    {"shape: VRPT on a connected node", break_node_pointer, 1, IN_CELL},
    {"shape: not two VRPT on an edge", break_end_count, 0, IN_CELL},
    {"shape: VRPT's class", break_end_byte, 0, IN_CELL},
    {"shape: VRPT's ORNT", break_end_byte, 5, IN_CELL},
    {"shape: VRPT's USAG", break_end_byte, 6, IN_CELL},
    {"shape: VRPT's TOPI", break_end_byte, 7, IN_CELL},
    {"shape: VRPT's MASK", break_end_byte, 8, IN_CELL},
    {"shape: FSPT entries of a point", break_spatial_count, 0, IN_CELL},
    {"shape: FSPT entries of a line", break_spatial_count, 1, IN_CELL},
    {"shape: FSPT entries of an area", break_spatial_count, 2, IN_CELL},
    {"shape: a point's class", break_spatial_byte, 0, IN_CELL},
    {"shape: a point's ORNT", break_spatial_byte, 1, IN_CELL},
    {"shape: a point's USAG", break_spatial_byte, 2, IN_CELL},
    {"shape: a point's MASK", break_spatial_byte, 3, IN_CELL},
    {"shape: a line's class", break_spatial_byte, 4, IN_CELL},
    {"shape: a line's ORNT", break_spatial_byte, 5, IN_CELL},
    {"shape: a line's USAG", break_spatial_byte, 6, IN_CELL},
    {"shape: a line's MASK", break_spatial_byte, 7, IN_CELL},
    {"shape: an area's class", break_spatial_byte, 8, IN_CELL},
    {"shape: an area's ORNT", break_spatial_byte, 9, IN_CELL},
    {"shape: an area's USAG", break_spatial_byte, 10, IN_CELL},
    {"shape: an area's MASK", break_spatial_byte, 11, IN_CELL},
    {"shape: MASK against USAG", break_area_mask, 0, IN_CELL},
    {"shape: PRIM against OBJL", break_collection, 0, IN_CELL},
    {"shape: FSPT in a collection", break_collection_spatial, 0, IN_CELL},
    {"pointer: an edge's node", break_edge_name, 0, IN_CELL},
    {"pointer: a point's node", break_spatial_name, 0, IN_CELL},
    {"pointer: a line's edge", break_spatial_name, 1, IN_CELL},
    {"pointer: an area's edge", break_spatial_name, 2, IN_CELL},
    {"pointer: LNAM", break_relation, 0, IN_CELL},
    {"pointer: an isolated node gone", break_vector_gone, 0, IN_CELL},
    {"pointer: a connected node gone", break_vector_gone, 1, IN_CELL},
    {"pointer: an edge gone", break_vector_gone, 2, IN_CELL},
    {"ring: an edge reversed", break_turn, 0, IN_CELL},
    {"ring: the last left open", break_open_ring, 0, IN_CELL},
    {"ring: an edge too many", break_edge_more, 0, IN_CELL},
    {"ring: edges exchanged", break_order, 0, IN_CELL},
    {"ring: USAG 2 in the first", break_usage, 0, IN_CELL},
    {"ring: USAG 1 or 3 in a later one", break_usage, 1, IN_CELL},
    {"ring: an edge's ends exchanged", break_ends_exchanged, 0, IN_CELL},
};

const struct rule_set topology_faults = {rules, sizeof rules / sizeof rules[0]};
