/* "Updates": whether an update follows its cell, its records one by one, and the names of the result. */
#include "tuned_parts.h"

enum { INSERT = 1, DELETE = 2, NAME_LENGTH = 8, DSNM = 7, EDTN = DSNM + 12 + 1, FIRST_CHANGE = 2 };

/* ---- 9 to 12 */

static uint32_t take_number(const uint8_t **text)
{
    uint32_t number = 0;
    for (; **text != UNIT_END; ++*text)
        number = number * 10 + (**text - (uint32_t)'0');
    ++*text;
    return number;
}

enum code follow_fault(const struct file *cell, const struct file *update)
{
    const uint8_t *held = cell->dsid + EDTN, *said = update->dsid + EDTN;
    if (memcmp(cell->dsid + DSNM, update->dsid + DSNM, NAME_LENGTH) != 0)
        return CODE_OTHER;
    if (take_number(&held) != take_number(&said))
        return CODE_EDITION;
    if (take_number(&held) + 1 != take_number(&said))
        return CODE_NUMBER;
    return cell->high_attributes != update->high_attributes || cell->high_national != update->high_national ? CODE_LEVEL : CODE_DONE;
}

/* ---- 13 to 16: what comes of each record of the update, by its number */

static struct edited outcomes[MOST_RECORDS];

static const uint32_t GONE = UINT32_MAX;

static enum head head_of(const uint8_t *frid)
{
    uint32_t object = two(frid + 7);
    return object < 300 ? NOGR : object < 400 ? NOMR : NOLR;
}

static enum code insert_code(const struct place *said, const uint8_t *identifier, enum class class, struct chart *result, struct edited *outcome)
{
    if (two(identifier + (class == FEATURE ? 9 : 5)) != 1)
        return CODE_VERSION;
    if (said->held & EDITING)
        return CODE_EDIT;
    if (class == FEATURE)
        result->counted[head_of(identifier)]++;
    outcome->place = (uint32_t)(said - places);
    return CODE_DONE;
}

static enum code change_code(struct file *cell, const struct place *said, enum class class, size_t index, struct chart *result, struct edited *outcome)
{
    const uint32_t record = cell->chart.names[class].records[index];
    const struct place *held = &places[record & ~UNSHAPED];
    const uint8_t *old = held->start + held->body + 3, *new = said->start + said->body + 3;
    const size_t version = class == FEATURE ? 9 : 5;
    if (two(new + version) != two(old + version) + 1)
        return CODE_VERSION;
    /* PRIM, GRUP and OBJL stand side by side; FOID follows FRID and its 1E */
    if (class == FEATURE && (four(old + 5) != four(new + 5) || eight(old + 13) != eight(new + 13)))
        return CODE_IDENTITY;
    if (new[version + 2] != DELETE) {
        *outcome = (struct edited){record, class == EDGE ? cell->chart.ends[index] : (struct ends){0, 0}};
        return revise_record(held, said, class, cell->north, outcome) ? CODE_DONE : CODE_EDIT;
    }
    if (said->length - said->body != (class == FEATURE ? 25u : 12u))
        return CODE_EDIT;
    if (class == FEATURE)
        result->counted[head_of(old)]--;
    outcome->place = GONE;
    return CODE_DONE;
}

static enum code record_code(struct file *cell, const struct place *said, struct chart *result, struct edited *outcome)
{
    const uint8_t *identifier = said->start + said->body + 3;
    const enum class class = identifier[0] == 110 ? ISOLATED : identifier[0] == 120 ? CONNECTED : identifier[0] == 130 ? EDGE : FEATURE;
    size_t index = find_name(&cell->chart.names[class], four(identifier + 1));
    bool inserts = identifier[class == FEATURE ? 11 : 7] == INSERT;
    if (inserts != (index == SIZE_MAX))
        return CODE_TARGET;
    return inserts ? insert_code(said, identifier, class, result, outcome) : change_code(cell, said, class, index, result, outcome);
}

/* ---- the result's names: the cell's, with what the update says of them and puts between them */

static void merge_class(const struct file *cell, const struct file *update, struct chart *result, enum class class)
{
    const struct names *held = &cell->chart.names[class], *said = &update->chart.names[class];
    struct names *names = &result->names[class];
    const bool edges = class == EDGE;
    size_t from = 0, to = 0;
    for (size_t i = 0; i <= said->count; i++) {
        size_t until = from;
        while (until < held->count && (i == said->count || held->ids[until] < said->ids[i]))
            until++;
        memcpy(names->ids + to, held->ids + from, (until - from) * sizeof names->ids[0]);
        memcpy(names->records + to, held->records + from, (until - from) * sizeof names->records[0]);
        if (edges)
            memcpy(result->ends + to, cell->chart.ends + from, (until - from) * sizeof result->ends[0]);
        to += until - from;
        from = until;
        if (i == said->count)
            break;
        const struct edited *outcome = &outcomes[(said->records[i] & ~UNSHAPED) - update->first];
        bool inserted = from == held->count || held->ids[from] != said->ids[i];
        from += !inserted;
        if (outcome->place == GONE)
            continue;
        names->ids[to] = said->ids[i];
        names->records[to] = inserted ? said->records[i] : outcome->place;
        if (edges)
            result->ends[to] = inserted ? update->chart.ends[i] : outcome->ends;
        to++;
    }
    names->count = to;
}

static void merge(const struct file *cell, const struct file *update, struct chart *result)
{
    for (unsigned class = 0; class < CLASSES; class++) {
        if (update->chart.names[class].count > 0) {
            merge_class(cell, update, result, class);
            continue;
        }
        result->names[class] = cell->chart.names[class];
        if (class == EDGE)
            result->ends = cell->chart.ends;
    }
    result->counted[NOIN] = (uint32_t)result->names[ISOLATED].count;
    result->counted[NOCN] = (uint32_t)result->names[CONNECTED].count;
    result->counted[NOED] = (uint32_t)result->names[EDGE].count;
}

enum code work_in(struct file *cell, struct file *update, struct chart *result, size_t *record)
{
    memcpy(result->counted, cell->chart.counted, sizeof result->counted);
    edits_open(update);
    for (*record = FIRST_CHANGE; *record < update->records; ++*record) {
        enum code code = record_code(cell, &places[update->first + *record], result, &outcomes[*record]);
        if (code != CODE_DONE)
            return code;
    }
    merge(cell, update, result);
    return CODE_DONE;
}
