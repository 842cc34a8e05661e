/* What the makers of cells and of updates share. */
#ifndef BENCH_GENERATE_SCENE_H
#define BENCH_GENERATE_SCENE_H

#include "generate_chart.h"

enum rank { ISOLATED, CONNECTED, EDGE, FEATURE, RANKS };

enum ids { IDS_ASCENDING, IDS_DESCENDING, IDS_GAPS, IDS_SPREAD };

struct edge_ends {
    uint32_t begin, end; /* indexes of connected nodes */
};

/* A cell in the making: records by rank, and what later ones want to know of earlier ones. */
struct scene {
    struct scene_style style;
    struct random *random;
    enum ids ids;
    bool high_attributes, high_national; /* AALL and NALL are 1 */
    bool shared_objects;
    int32_t comf;
    uint32_t features; /* in the end */
    struct record_list rank[RANKS];
    struct edge_ends *edge;
    size_t edge_room;
};

struct data_set {
    char name[13];
    const char *edition, *number;
    bool update, plain;
};

/* A record with its 0001. */
struct chart_record *new_record(struct record_list *list, const struct scene *scene);

/* A value or comment, often a usual one, at times an empty one, and its 1F. */
void put_value_text(struct buffer *content, bool high, bool plain, struct random *random);

void put_attributes(struct chart_record *record, const char *tag, uint32_t count, bool high, bool plain, struct random *random);
void put_data_set(struct chart_record *record, const struct data_set *set, struct random *random);
void put_structure(struct chart_record *record, bool high_attributes, bool high_national);

#endif
