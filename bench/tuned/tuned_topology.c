/* "Topology (chain-node)": the shape of vectors is known; their pointers, and each feature in one walk over its lists. At the first item that isn't good
   its rules are tried one after the other. */
#include "tuned_parts.h"

enum { NODE_110 = 110, NODE_120 = 120, EDGE_130 = 130, NO = 255, FIRST_PLACE = 3 };

/* ---- FOIDs: a table of twice as many slots or more, an object's place found by multiplying. Where many objects want one place, as a chart made for it can have
   them, they are sorted instead. 0 stands for an empty slot; the object 0 is remembered by itself. */

enum { MOST_SLOTS = 1 << 19, MOST_TRIES = 64 };

static uint64_t slots[MOST_SLOTS], sorted[2][2 * MOST_FEATURES];

struct objects {
    unsigned shift; /* the high bits that are left are a slot */
    size_t last;    /* of the slots */
    bool zero;
    const uint64_t *sorted; /* null where the table serves */
    size_t count;
};

static inline size_t slot_of(const struct objects *objects, uint64_t object)
{
    return (size_t)((object ^ object >> 32) * UINT64_C(0xD6E8FEB86659FD93) >> objects->shift);
}

/* False where it has to go too far. */
static inline bool add_object(struct objects *objects, uint64_t object)
{
    if (object == 0) {
        objects->zero = true;
        return true;
    }
    size_t slot = slot_of(objects, object), tries = MOST_TRIES;
    for (; slots[slot] != object; slot = (slot + 1) & objects->last) {
        if (slots[slot] == 0) {
            slots[slot] = object;
            return true;
        }
        if (--tries == 0)
            return false;
    }
    return true;
}

static void sort_objects(struct objects *objects, const struct names *names)
{
    uint64_t *from = sorted[0], *to = sorted[1];
    size_t count = names->count;
    for (size_t i = 0; i < count; i++)
        from[i] = features[places[names->records[i]].feature].object;
    for (size_t run = 1; run < count; run *= 2) {
        for (size_t at = 0; at < count; at += 2 * run) {
            size_t middle = count - at < run ? count : at + run, end = count - at < 2 * run ? count : at + 2 * run, left = at, right = middle;
            for (size_t i = at; i < end; i++)
                to[i] = left < middle && (right == end || from[left] <= from[right]) ? from[left++] : from[right++];
        }
        uint64_t *other = from;
        from = to;
        to = other;
    }
    objects->sorted = from;
    objects->count = count;
}

static void objects_open(struct objects *objects, const struct names *names)
{
    *objects = (struct objects){.shift = 62, .last = 3};
    for (; objects->last < 2 * names->count; objects->shift--)
        objects->last = 2 * objects->last + 1;
    memset(slots, 0, (objects->last + 1) * sizeof slots[0]);
    for (size_t i = 0; i < names->count; i++)
        if (!add_object(objects, features[places[names->records[i]].feature].object)) {
            sort_objects(objects, names);
            return;
        }
}

static bool has_sorted(const struct objects *objects, uint64_t object)
{
    size_t low = 0, high = objects->count;
    while (low < high) {
        size_t middle = low + (high - low) / 2;
        if (objects->sorted[middle] < object)
            low = middle + 1;
        else
            high = middle;
    }
    return low < objects->count && objects->sorted[low] == object;
}

static inline bool has_object(const struct objects *objects, uint64_t object)
{
    if (objects->sorted != NULL)
        return has_sorted(objects, object);
    if (object == 0)
        return objects->zero;
    size_t slot = slot_of(objects, object);
    while (slots[slot] != object) {
        if (slots[slot] == 0)
            return false;
        slot = (slot + 1) & objects->last;
    }
    return true;
}

/* ---- features, good or not */

struct topology {
    struct chart *chart;
    struct objects objects;
};

static inline bool relations_point(const struct topology *topology, const struct feature *feature)
{
    for (size_t i = feature->relation; i < (size_t)feature->relation + feature->relations; i++)
        if (!has_object(&topology->objects, relations[i]))
            return false;
    return true;
}

static inline bool point_good(struct chart *chart, const struct feature *feature)
{
    if (feature->spatial_length != 8)
        return false;
    uint64_t entry = eight(feature->spatial);
    uint32_t class = entry & 0xFF;
    if (entry >> 40 != UINT64_C(0xFFFFFF) || (class != NODE_110 && class != NODE_120))
        return false;
    return find_name(&chart->names[class == NODE_110 ? ISOLATED : CONNECTED], (uint32_t)(entry >> 8)) != SIZE_MAX;
}

/* ORNT and MASK 1 or 2 and USAG none. */
static inline bool line_shaped(uint64_t entry)
{
    return (entry & 0xFF) == EDGE_130 && (((entry >> 40) - UINT64_C(0x01FF01)) & UINT64_C(0xFEFFFE)) == 0;
}

/* ORNT, USAG and MASK 1 or 2, or USAG 3 and no MASK. */
static inline bool area_shaped(uint64_t entry)
{
    uint64_t rest = (entry >> 40) - UINT64_C(0x010101);
    return (entry & 0xFF) == EDGE_130 && ((rest & UINT64_C(0xFEFEFE)) == 0 || (rest & UINT64_C(0xFFFFFE)) == UINT64_C(0xFE0200));
}

static inline bool line_good(struct chart *chart, const struct feature *feature)
{
    struct names *edges = &chart->names[EDGE];
    for (size_t i = 0; i < feature->spatial_length; i += 8) {
        uint64_t entry = eight(feature->spatial + i);
        if (!line_shaped(entry) || find_name(edges, (uint32_t)(entry >> 8)) == SIZE_MAX)
            return false;
    }
    return feature->spatial_length > 0;
}

/* The edges of a chart, as areas look them up. */
struct edges {
    struct names *names;
    const struct ends *ends;
    const uint32_t *ids;
    size_t count;
};

/* The ends of the edge that an entry names, the first one low: as it runs, or turned round. False where it isn't there. */
static inline bool ends_of(const struct edges *edges, uint64_t entry, uint64_t *ends)
{
    const uint32_t id = (uint32_t)(entry >> 8);
    size_t edge = (size_t)(id - edges->ids[0]);
    if (edge >= edges->count || edges->ids[edge] != id) {
        edge = search_name(edges->names, id);
        if (edge == SIZE_MAX)
            return false;
    }
    uint64_t both;
    memcpy(&both, &edges->ends[edge], sizeof both);
    *ends = entry >> 41 & 1 ? both >> 32 | both << 32 : both;
    return true;
}

/* Shape, pointer and ring of each entry at once. */
static inline bool area_good(struct chart *chart, const struct feature *feature)
{
    const struct edges edges = {&chart->names[EDGE], chart->ends, chart->names[EDGE].ids, chart->names[EDGE].count};
    const uint8_t *at = feature->spatial, *end = at + feature->spatial_length;
    uint64_t ends;
    for (bool interior = false; at < end; interior = true) {
        uint64_t entry = eight(at);
        if (!area_shaped(entry) || ((entry >> 48 & 0xFF) == 2) != interior || !ends_of(&edges, entry, &ends))
            return false;
        const uint32_t start = (uint32_t)ends;
        for (at += 8; (uint32_t)(ends >> 32) != start; at += 8) {
            const uint32_t node = (uint32_t)(ends >> 32);
            if (at == end)
                return false;
            entry = eight(at);
            if (!area_shaped(entry) || ((entry >> 48 & 0xFF) == 2) != interior || !ends_of(&edges, entry, &ends) || (uint32_t)ends != node)
                return false;
        }
    }
    return feature->spatial_length > 0;
}

static inline bool feature_good(const struct topology *topology, const struct feature *feature)
{
    if (feature->collection != (feature->primitive == NO) || !relations_point(topology, feature))
        return false;
    switch (feature->primitive) {
    case 1:
        return point_good(topology->chart, feature);
    case 2:
        return line_good(topology->chart, feature);
    case 3:
        return area_good(topology->chart, feature);
    default:
        return feature->spatial_length == 0;
    }
}

/* ---- the code of a feature that isn't good */

static bool entry_shaped(uint64_t entry, uint8_t primitive)
{
    switch (primitive) {
    case 1:
        return ((entry & 0xFF) == NODE_110 || (entry & 0xFF) == NODE_120) && entry >> 40 == UINT64_C(0xFFFFFF);
    case 2:
        return line_shaped(entry);
    default:
        return area_shaped(entry);
    }
}

static bool feature_shaped(const struct feature *feature)
{
    if (feature->collection != (feature->primitive == NO))
        return false;
    if (feature->collection)
        return feature->spatial_length == 0;
    for (size_t i = 0; i < feature->spatial_length; i += 8)
        if (!entry_shaped(eight(feature->spatial + i), feature->primitive))
            return false;
    return feature->primitive == 1 ? feature->spatial_length == 8 : feature->spatial_length > 0;
}

static bool spatial_points(struct chart *chart, const struct feature *feature)
{
    for (size_t i = 0; i < feature->spatial_length; i += 8) {
        uint64_t entry = eight(feature->spatial + i);
        enum class class = (entry & 0xFF) == NODE_110 ? ISOLATED : (entry & 0xFF) == NODE_120 ? CONNECTED : EDGE;
        if (find_name(&chart->names[class], (uint32_t)(entry >> 8)) == SIZE_MAX)
            return false;
    }
    return true;
}

static enum code feature_code(const struct topology *topology, const struct feature *feature)
{
    if (!feature_shaped(feature))
        return CODE_SHAPE;
    return relations_point(topology, feature) && spatial_points(topology->chart, feature) ? CODE_RING : CODE_POINTER;
}

/* ---- the chart */

/* The first vector of a class that isn't shaped, or how many there are. */
static size_t first_unshaped(const struct names *names)
{
    uint32_t any = 0;
    for (size_t i = 0; i < names->count; i++)
        any |= names->records[i];
    if ((any & UNSHAPED) == 0)
        return names->count;
    size_t first = 0;
    while ((names->records[first] & UNSHAPED) == 0)
        first++;
    return first;
}

static size_t first_bad_edge(struct chart *chart)
{
    struct names *edges = &chart->names[EDGE], *nodes = &chart->names[CONNECTED];
    size_t first = 0, shaped = first_unshaped(edges);
    while (first < shaped && find_name(nodes, chart->ends[first].begin) != SIZE_MAX && find_name(nodes, chart->ends[first].end) != SIZE_MAX)
        first++;
    return first;
}

static enum code features_fault(struct chart *chart, size_t *place)
{
    const struct names *names = &chart->names[FEATURE];
    struct topology topology = {.chart = chart};
    if (relation_count > 0)
        objects_open(&topology.objects, names);
    for (size_t i = 0; i < names->count; i++) {
        const struct feature *feature = &features[places[names->records[i]].feature];
        if (!feature_good(&topology, feature)) {
            *place += i;
            return feature_code(&topology, feature);
        }
    }
    return CODE_DONE;
}

enum code topology_fault(struct chart *chart, size_t *place)
{
    *place = FIRST_PLACE;
    for (unsigned class = ISOLATED; class <= CONNECTED; class++) {
        size_t first = first_unshaped(&chart->names[class]);
        *place += first;
        if (first < chart->names[class].count)
            return CODE_SHAPE;
    }
    const struct names *edges = &chart->names[EDGE];
    size_t first = first_bad_edge(chart);
    *place += first;
    if (first < edges->count)
        return edges->records[first] & UNSHAPED ? CODE_SHAPE : CODE_POINTER;
    return features_fault(chart, place);
}
