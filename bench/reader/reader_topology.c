/* "Topology (chain-node)": Shape, Pointer and Ring of every vector and feature, in held order. */
#include "reader_parts.h"

#include <stdlib.h>

enum { NONE = 255, ISOLATED = 110, CONNECTED = 120, EDGE = 130, FEATURE = 100, FIRST_PLACE = 3 };

/* No area has more edges: a record of a file has 99,999 bytes at most, and an update can double it before the limit is asked for. */
enum { MOST_STEPS = 2 * (99999 / 8) };

/* An edge as an area's boundary runs along it. */
struct step {
    uint32_t from, to; /* ids of connected nodes */
    uint8_t usage;
};

struct ends {
    uint32_t begin, end;
};

struct topology {
    struct reading *chart;
    const uint8_t *bytes; /* what the places below count from */
    struct field *fields; /* of the record at hand */
    size_t field_count;
    size_t first_edge;    /* in the names */
    struct ends *ends;    /* of each edge, from the first on, once it was judged */
    uint64_t *objects;    /* FOIDs, sorted */
    size_t object_count;
    struct step *steps;   /* of the area at hand */
    size_t step_count;
};

/* ---- going through the entries of a record's lists */

struct entries {
    const uint8_t *at, *end;
};

static struct entries entries_of(const struct topology *topology, const struct field *field)
{
    const uint8_t *content = topology->bytes + field->start;
    return (struct entries){content, content + field->length - 1};
}

static void load(struct topology *topology, size_t index)
{
    load_item(topology->chart, index);
    topology->bytes = topology->chart->from;
    topology->field_count = topology->chart->field_count;
}

/* ---- Shape of vectors */

static bool within(const struct topology *topology, struct entries entries, size_t size)
{
    int64_t north = 90 * (int64_t)topology->chart->comf, east = 2 * north;
    for (; entries.at < entries.end; entries.at += size) {
        int32_t y = (int32_t)number_at(entries.at, 4), x = (int32_t)number_at(entries.at + 4, 4);
        if (y < -north || y > north || x < -east || x > east)
            return false;
    }
    return true;
}

struct vector_lists {
    size_t pairs, soundings, pointers, begins, ends;
};

/* NAME, ORNT, USAG, TOPI, MASK. */
static bool pointers_shaped(struct entries entries, struct vector_lists *lists)
{
    for (; entries.at < entries.end; entries.at += 9) {
        const uint8_t *entry = entries.at;
        if (entry[0] != CONNECTED || entry[5] != NONE || entry[6] != NONE || entry[8] != NONE)
            return false;
        lists->pointers++;
        lists->begins += entry[7] == 1;
        lists->ends += entry[7] == 2;
    }
    return true;
}

static bool count_lists(const struct topology *topology, struct vector_lists *lists)
{
    for (size_t i = 2; i < topology->field_count; i++) {
        const struct field *field = &topology->fields[i];
        struct entries entries = entries_of(topology, field);
        size_t length = field->length - 1;
        switch (field->tag) {
        case TAG_SG2D:
            lists->pairs += length / 8;
            if (!within(topology, entries, 8))
                return false;
            break;
        case TAG_SG3D:
            lists->soundings += length / 12;
            if (!within(topology, entries, 12))
                return false;
            break;
        case TAG_VRPT:
            if (!pointers_shaped(entries, lists))
                return false;
            break;
        default:
            break;
        }
    }
    return true;
}

static bool vector_shaped(const struct topology *topology, uint8_t class)
{
    struct vector_lists lists = {0};
    if (!count_lists(topology, &lists))
        return false;
    if (class == EDGE)
        return lists.soundings == 0 && lists.pointers == 2 && lists.begins == 1 && lists.ends == 1;
    if (lists.pointers > 0)
        return false;
    bool one_pair = lists.pairs == 1 && lists.soundings == 0;
    return one_pair || (class == ISOLATED && lists.pairs == 0 && lists.soundings > 0);
}

/* ---- Shape of features */

/* NAME, ORNT, USAG, MASK. */
static bool spatial_shaped(const uint8_t *entry, uint8_t primitive)
{
    uint8_t class = entry[0], turn = entry[5], usage = entry[6], mask = entry[7];
    bool one_or_two = mask == 1 || mask == 2;
    switch (primitive) {
    case 1:
        return (class == ISOLATED || class == CONNECTED) && turn == NONE && usage == NONE && mask == NONE;
    case 2:
        return class == EDGE && (turn == 1 || turn == 2) && usage == NONE && one_or_two;
    case 3:
        return class == EDGE && (turn == 1 || turn == 2) && usage >= 1 && usage <= 3 && (usage == 3 ? mask == NONE : one_or_two);
    default:
        return false;
    }
}

static bool feature_shaped(const struct topology *topology)
{
    const uint8_t *identifier = topology->bytes + topology->fields[1].start;
    uint8_t primitive = identifier[5];
    bool collection = number_at(identifier + 7, 2) >= 400;
    size_t count = 0;
    if (collection != (primitive == NONE))
        return false;
    for (size_t i = 3; i < topology->field_count; i++) {
        if (topology->fields[i].tag != TAG_FSPT)
            continue;
        for (struct entries entries = entries_of(topology, &topology->fields[i]); entries.at < entries.end; entries.at += 8, count++)
            if (!spatial_shaped(entries.at, primitive))
                return false;
    }
    return collection ? count == 0 : primitive == 1 ? count == 1 : count > 0;
}

/* ---- Pointer */

static size_t find_entry(const struct topology *topology, const uint8_t *name)
{
    return find_name(topology->chart, name[0], number_at(name + 1, 4));
}

/* The edge at `index` of the names; its ends are kept for the rings. */
static bool edge_points(struct topology *topology, size_t index)
{
    struct ends *ends = &topology->ends[index - topology->first_edge];
    for (size_t i = 2; i < topology->field_count; i++) {
        if (topology->fields[i].tag != TAG_VRPT)
            continue;
        for (struct entries entries = entries_of(topology, &topology->fields[i]); entries.at < entries.end; entries.at += 9) {
            if (find_entry(topology, entries.at) == FINE)
                return false;
            *(entries.at[7] == 1 ? &ends->begin : &ends->end) = number_at(entries.at + 1, 4);
        }
    }
    return true;
}

static bool spatial_points(struct topology *topology, struct entries entries, bool area)
{
    for (; entries.at < entries.end; entries.at += 8) {
        size_t found = find_entry(topology, entries.at);
        if (found == FINE)
            return false;
        if (!area)
            continue;
        struct ends ends = topology->ends[found - topology->first_edge];
        bool reversed = entries.at[5] == 2;
        topology->steps[topology->step_count++] =
            (struct step){reversed ? ends.end : ends.begin, reversed ? ends.begin : ends.end, entries.at[6]};
    }
    return true;
}

static uint64_t object_at(const uint8_t *at)
{
    return number_at(at, 4) | (uint64_t)number_at(at + 4, 4) << 32;
}

static bool has_object(const struct topology *topology, uint64_t object)
{
    size_t from = 0, count = topology->object_count;
    while (count > 0) {
        size_t half = count / 2;
        if (topology->objects[from + half] < object) {
            from += half + 1;
            count -= half + 1;
        } else {
            count = half;
        }
    }
    return from < topology->object_count && topology->objects[from] == object;
}

/* LNAM, RIND, COMT. */
static bool relations_point(const struct topology *topology, struct entries entries)
{
    while (entries.at < entries.end) {
        if (!has_object(topology, object_at(entries.at)))
            return false;
        entries.at += 9;
        while (*entries.at++ != UNIT_END)
            continue;
    }
    return true;
}

static bool feature_points(struct topology *topology)
{
    bool area = topology->bytes[topology->fields[1].start + 5] == 3;
    topology->step_count = 0;
    for (size_t i = 3; i < topology->field_count; i++) {
        struct entries entries = entries_of(topology, &topology->fields[i]);
        if (topology->fields[i].tag == TAG_FFPT && !relations_point(topology, entries))
            return false;
        if (topology->fields[i].tag == TAG_FSPT && !spatial_points(topology, entries, area))
            return false;
    }
    return true;
}

/* ---- Ring */

static bool rings_close(const struct topology *topology)
{
    const struct step *step = topology->steps, *end = step + topology->step_count;
    for (bool exterior = true; step < end; exterior = false) {
        uint32_t start = step->from, node = start;
        do {
            if (step == end || step->from != node || (step->usage == 2) == exterior)
                return false;
            node = step->to;
            step++;
        } while (node != start);
    }
    return true;
}

/* ---- the chart */

static void topology_open(struct topology *topology, struct reading *chart)
{
    *topology = (struct topology){.chart = chart, .fields = chart->fields};
    size_t nodes = (size_t)chart->counted[4] + chart->counted[5], edges = chart->counted[6], features = chart->name_count - nodes - edges;
    topology->first_edge = nodes;
    topology->ends = grow(NULL, edges + 1, sizeof topology->ends[0]);
    topology->objects = grow(NULL, features + 1, sizeof topology->objects[0]);
    topology->steps = grow(NULL, MOST_STEPS, sizeof topology->steps[0]);
    for (size_t i = nodes + edges; i < chart->name_count; i++)
        topology->objects[topology->object_count++] = object_at(object_of(chart, i));
    sort_words(topology->objects, topology->object_count);
}

static void topology_close(struct topology *topology)
{
    free(topology->ends);
    free(topology->objects);
    free(topology->steps);
}

static enum code judge_item(struct topology *topology, size_t index)
{
    load(topology, index);
    uint8_t class = topology->bytes[topology->fields[1].start];
    if (class == FEATURE) {
        if (!feature_shaped(topology))
            return CODE_SHAPE;
        if (!feature_points(topology))
            return CODE_POINTER;
        return rings_close(topology) ? CODE_DONE : CODE_RING;
    }
    if (!vector_shaped(topology, class))
        return CODE_SHAPE;
    return class != EDGE || edge_points(topology, index) ? CODE_DONE : CODE_POINTER;
}

struct answer judge_topology(struct reading *chart)
{
    struct topology topology;
    struct answer answer = {0};
    bool result = chart->result != NULL;
    topology_open(&topology, chart);
    for (size_t i = 0; i < chart->name_count && answer.code == CODE_DONE; i++) {
        enum code code = judge_item(&topology, i);
        if (code != CODE_DONE)
            answer = (struct answer){.code = code, .file = result ? 3 : 1, .record = (uint32_t)(FIRST_PLACE + i),
                                     .offset = result ? 0 : (uint32_t)record_of(chart->names[i])};
    }
    topology_close(&topology);
    return answer;
}

struct answer reader_judge(const uint8_t *cell, size_t length, size_t work_length)
{
    struct reading reading = {.bytes = cell, .length = length};
    struct answer answer = read_files(&reading, NULL, work_length);
    if (answer.code == CODE_DONE)
        answer = judge_topology(&reading);
    reading_close(&reading);
    return answer;
}
