/* The walk over vectors and features: framing, layout and values of a record in one go, and what later stages want to know of it.

   It decides only whether a record is good, and exactly so. Given the two sizes in the leader, the first rows of a directory can have one text alone: they are
   compared with it, eight bytes at a time. Of the rows behind them length and position are read together in one word. */
#include "tuned_shape.h"

struct place places[2 * MOST_RECORDS + MOST_ITEMS];
struct feature features[3 * MOST_FEATURES];
uint64_t relations[4 * MOST_RELATIONS];
size_t feature_count, relation_count;
uint8_t joined[4 * LONGEST_FILE];
size_t joined_length;

/* For each label the number of the list that it was last met in, and the number of the last list. They go on from call to call. */
static uint32_t met[65536], lists;

/* Whether the update's record at hand has a control, or a value that removes. */
static bool editing;

/* ---- rows of a directory, by the two sizes */

/* SIZES: a form for every index that two half bytes can make. A leader's size is looked up by its low half once its high half is known to be 3, and such a byte needn't
   be a digit: it may be one of : to ?. Those entries, and those of a size of 0, keep a width of 0, which refuses the record. */
enum { VECTOR_WORDS = 3, FEATURE_WORDS = 5, SMALL = 4, SIZES = 256 };

struct form {
    uint8_t lengths, positions, width;
    bool small;    /* length and position have four digits at most: they are read in one word */
    bool features; /* the rows of a feature can be written with so few digits */
    uint64_t vector[VECTOR_WORDS], vector_mask[VECTOR_WORDS];
    uint64_t feature[FEATURE_WORDS], feature_mask[FEATURE_WORDS];
    uint32_t least_length, least_position; /* what wants so many digits */
    uint8_t vector_rows[2 * 22], feature_rows[3 * 22];
};

static struct form forms[SIZES];

struct head_row {
    char tag[5];
    uint32_t length, position;
};

static uint32_t power_of_ten(unsigned exponent)
{
    uint32_t power = 1;
    while (exponent-- > 0)
        power *= 10;
    return power;
}

static bool put_digits(uint8_t *to, unsigned count, uint32_t number)
{
    for (unsigned i = count; i-- > 0; number /= 10)
        to[i] = (uint8_t)('0' + number % 10);
    return number == 0;
}

/* False where a number doesn't fit. */
static bool put_rows(uint8_t *to, const struct form *form, const struct head_row *row, size_t count)
{
    bool fits = true;
    for (size_t i = 0; i < count; i++, to += form->width) {
        memcpy(to, row[i].tag, TAG_SIZE);
        fits = put_digits(to + TAG_SIZE, form->lengths, row[i].length) && fits;
        fits = put_digits(to + TAG_SIZE + form->lengths, form->positions, row[i].position) && fits;
    }
    return fits;
}

static void put_words(uint64_t *word, uint64_t *mask, size_t words, const uint8_t *rows, size_t length)
{
    uint8_t text[64] = {0}, ones[64] = {0};
    if (length > 8 * words)
        return;
    memcpy(text, rows, length);
    memset(ones, 0xFF, length);
    memcpy(word, text, 8 * words);
    memcpy(mask, ones, 8 * words);
}

static void make_form(struct form *form, unsigned lengths, unsigned positions)
{
    static const struct head_row vector[] = {{"0001", 3, 0}, {"VRID", 9, 3}};
    static const struct head_row feature[] = {{"0001", 3, 0}, {"FRID", 13, 3}, {"FOID", 9, 16}};
    form->lengths = (uint8_t)lengths;
    form->positions = (uint8_t)positions;
    form->width = (uint8_t)(TAG_SIZE + lengths + positions);
    form->small = lengths <= SMALL && positions <= SMALL;
    form->least_length = lengths == 1 ? 0 : power_of_ten(lengths - 1);
    form->least_position = positions == 1 ? 0 : power_of_ten(positions - 1);
    put_rows(form->vector_rows, form, vector, 2);
    form->features = put_rows(form->feature_rows, form, feature, 3);
    put_words(form->vector, form->vector_mask, VECTOR_WORDS, form->vector_rows, 2u * form->width);
    put_words(form->feature, form->feature_mask, FEATURE_WORDS, form->feature_rows, 3u * form->width);
}

static void make_forms(void)
{
    if (forms[1 << 4 | 1].width > 0)
        return;
    for (unsigned lengths = 1; lengths <= 9; lengths++)
        for (unsigned positions = 1; positions <= 9; positions++)
            make_form(&forms[lengths << 4 | positions], lengths, positions);
}

/* ---- a record opened: its leader is good, and it has room for the rows and fields that every vector has */

struct opened {
    const struct form *form;
    const uint8_t *rows, *stop, *body;
    uint32_t length, area;
};

static const uint64_t FIVE = UINT64_C(0xFFFFFFFFFF), ZEROS = UINT64_C(0x3030303030303030), SIXES = UINT64_C(0x0606060606060606);
static const uint64_t HIGH_HALVES = UINT64_C(0xF0F0F0F0F0F0F0F0);
enum { LEAST_VECTOR = 49, LEAST_AREA = 12 };

/* Five digits, each in a byte of its own, the first one lowest. */
ALWAYS uint32_t five(uint64_t digits)
{
    uint64_t tens = (digits * 2561) >> 8;
    return (uint32_t)((tens & 0xFF) * 1000 + (tens >> 16 & 0xFF) * 10 + (digits >> 32));
}

ALWAYS bool open_record(const uint8_t *at, size_t left, struct opened *opened)
{
    if (left < LEAST_VECTOR)
        return false;
    uint64_t first = eight(at), second = eight(at + 12), length = (first ^ ZEROS) & FIVE, base = (second ^ ZEROS) & FIVE;
    uint32_t sizes = four(at + 20), row;
    if (((length | base | (length + SIXES) | (base + SIXES)) & HIGH_HALVES & FIVE) != 0 || (first >> 48 & 0xFF) != 'D' ||
        (sizes & 0xFFFFF0F0) != UINT32_C(0x34303030))
        return false;
    opened->form = &forms[(sizes & 0xF) << 4 | (sizes >> 8 & 0xF)];
    opened->length = five(length);
    row = five(base);
    /* no width: a size of 0 or over 9 */
    if (opened->length > left || row > opened->length || row < LEADER + 1 + 2u * opened->form->width || opened->form->width == 0)
        return false;
    opened->rows = at + LEADER;
    opened->body = at + row;
    opened->stop = opened->body - 1;
    opened->area = opened->length - row;
    return *opened->stop == FIELD_END && opened->area >= LEAST_AREA;
}

ALWAYS bool is_vector(const struct opened *opened)
{
    const struct form *form = opened->form;
    const uint8_t *rows = opened->rows;
    if (!form->small)
        return memcmp(rows, form->vector_rows, 2u * form->width) == 0;
    return ((eight(rows) ^ form->vector[0]) | ((eight(rows + 8) ^ form->vector[1]) & form->vector_mask[1]) |
            ((eight(rows + 16) ^ form->vector[2]) & form->vector_mask[2])) == 0;
}

/* At least 74 bytes: of them 24 are the leader. */
ALWAYS bool is_feature(const struct opened *opened)
{
    const struct form *form = opened->form;
    const uint8_t *rows = opened->rows;
    if (!form->features || opened->stop < rows + 3u * form->width || opened->area < 25)
        return false;
    if (!form->small)
        return memcmp(rows, form->feature_rows, 3u * form->width) == 0;
    return ((eight(rows) ^ form->feature[0]) | (eight(rows + 8) ^ form->feature[1]) | (eight(rows + 16) ^ form->feature[2]) |
            ((eight(rows + 24) ^ form->feature[3]) & form->feature_mask[3]) | ((eight(rows + 32) ^ form->feature[4]) & form->feature_mask[4])) == 0;
}

/* Length and position of a row, in the low and the high half; both halves full where they aren't digits. */
static SELDOM uint64_t wide_row(const uint8_t *row, const struct form *form)
{
    uint32_t number[2] = {0, 0};
    const uint8_t *at = row + TAG_SIZE;
    for (unsigned i = 0; i < 2; i++)
        for (unsigned left = i == 0 ? form->lengths : form->positions; left > 0; left--, at++) {
            uint32_t digit = *at - (uint32_t)'0';
            if (digit > 9)
                return UINT64_MAX;
            number[i] = number[i] * 10 + digit;
        }
    return number[0] | (uint64_t)number[1] << 32;
}

ALWAYS uint64_t small_row(const uint8_t *row, const struct form *form)
{
    uint64_t text = eight(row + TAG_SIZE) ^ ZEROS, length = (uint32_t)text << (32 - 8 * form->lengths) & UINT32_MAX,
             position = (text >> 8 * form->lengths & UINT32_MAX) << (64 - 8 * form->positions);
    uint64_t digits = length | position;
    if (((digits | (digits + SIXES)) & HIGH_HALVES) != 0)
        return UINT64_MAX;
    digits = (digits * 10 + (digits >> 8)) & UINT64_C(0x00FF00FF00FF00FF);
    return (digits * 100 + (digits >> 16)) & UINT64_C(0x0000FFFF0000FFFF);
}

/* The length of the field that is due, or 0 where its row or its end isn't good. */
ALWAYS uint32_t field_due(const struct opened *opened, const uint8_t *row, uint32_t due)
{
    uint64_t both = opened->form->small ? small_row(row, opened->form) : wide_row(row, opened->form);
    uint32_t length = (uint32_t)both;
    if ((uint32_t)(both >> 32) != due || length - 1 >= opened->area - due || opened->body[due + length - 1] != FIELD_END)
        return 0;
    return length;
}

/* ---- texts, eight bytes at a time */

/* The high bit of each byte that is no text. */
ALWAYS uint64_t no_text(uint64_t bytes, bool high)
{
    const uint64_t tops = UINT64_C(0x8080808080808080);
    uint64_t low = bytes & ~tops, from_blank = low + UINT64_C(0x6060606060606060), is_last = low + UINT64_C(0x0101010101010101);
    uint64_t text = high ? from_blank & (bytes | ~is_last) : from_blank & ~(bytes | is_last);
    return ~text & tops;
}

/* The number of the lowest byte whose high bit is set; one is. */
ALWAYS unsigned lowest(uint64_t tops)
{
#if defined(__GNUC__)
    return (unsigned)__builtin_ctzll(tops) >> 3;
#else
    unsigned byte = 0;
    while ((tops >> (8 * byte + 7) & 1) == 0)
        byte++;
    return byte;
#endif
}

/* The first byte from `at` on that is no text: there is one, since 1E isn't. Eight bytes can be read up to `safe`. */
ALWAYS const uint8_t *behind_text(const uint8_t *at, const uint8_t *safe, bool high)
{
    while (at <= safe) {
        uint64_t others = no_text(eight(at), high);
        if (others != 0)
            return at + lowest(others);
        at += 8;
    }
    while ((*at >= 0x20 && *at <= 0x7E) || (high && *at >= 0xA0))
        at++;
    return at;
}

/* The attributes of a field whose 1E stands at `end`, of list number `list`. */
ALWAYS bool attributes_good(const uint8_t *at, const uint8_t *end, const uint8_t *safe, bool high, bool update, uint32_t list)
{
    do {
        if (end - at < 3)
            return false;
        uint32_t label = two(at);
        if (met[label] == list)
            return false;
        met[label] = list;
        const uint8_t *close = behind_text(at + 2, safe, high);
        if (update && *close == REMOVED && close == at + 2) {
            editing = true;
            close++;
        }
        if (*close != UNIT_END)
            return false;
        at = close + 1;
    } while (at < end);
    return true;
}

/* LNAM, RIND, COMT; the LNAMs are kept. */
ALWAYS bool relations_good(const uint8_t *at, const uint8_t *end, const uint8_t *safe)
{
    size_t count = relation_count;
    do {
        if (end - at < 10 || (at[8] & 0xFE) != 2)
            return false;
        relations[count++] = eight(at);
        const uint8_t *close = at[9] == UNIT_END ? at + 9 : behind_text(at + 9, safe, false);
        if (*close != UNIT_END)
            return false;
        at = close + 1;
    } while (at < end);
    relation_count = count;
    return true;
}

/* ---- what a record comes to in the held form */

struct sizes {
    uint32_t rows, longest, run, last, dropped; /* `run`: the length of the list at hand; `last`: where the last field begins */
};

ALWAYS void sizes_add(struct sizes *sizes, uint32_t length, uint32_t due, bool goes_on)
{
    sizes->rows += !goes_on;
    sizes->dropped += goes_on;
    sizes->run = goes_on ? sizes->run + length - 1 : length;
    sizes->last = goes_on ? sizes->last : due - sizes->dropped;
    sizes->longest = sizes->run > sizes->longest ? sizes->run : sizes->longest;
}

static SELDOM uint32_t other_length(const struct sizes *sizes, uint32_t area)
{
    return held_length(sizes->rows, sizes->longest, sizes->last, area - sizes->dropped);
}

ALWAYS uint32_t length_held(const struct opened *opened, const struct sizes *sizes)
{
    if (sizes->dropped == 0 && sizes->longest >= opened->form->least_length && sizes->last >= opened->form->least_position)
        return opened->length | DIRECT;
    return other_length(sizes, opened->area);
}

/* ---- vectors */

struct walk {
    struct file *file;
    const uint8_t *safe; /* up to here eight bytes can be read */
    bool update, held_lengths;
};

/* The lists of a vector, from its third row on. */
ALWAYS bool vector_lists_good(const struct walk *walk, const struct opened *opened, struct shape *shape, struct sizes *sizes)
{
    const struct file *file = walk->file;
    const uint8_t *row = opened->rows + 2u * opened->form->width, *stop = opened->stop;
    const size_t width = opened->form->width;
    uint32_t due = 12;
    enum kind before = KIND_VRID;
    while ((size_t)(stop - row) >= width) {
        uint32_t tag = four(row), length = field_due(opened, row, due);
        const uint8_t *at = opened->body + due, *end = at + length - 1;
        enum kind kind;
        if (length < 2)
            return false;
        if (tag == TAG_SG2D) {
            kind = KIND_SG2D;
            if ((length - 1) % 8 != 0)
                return false;
            add_pairs(shape, at, (length - 1) / 8, file->north);
        } else if (tag == TAG_VRPT) {
            kind = KIND_VRPT;
            if ((length - 1) % 9 != 0)
                return false;
            add_pointers(shape, at, end);
        } else if (tag == TAG_ATTV) {
            kind = KIND_ATTV;
            lists += before != KIND_ATTV;
            if (!attributes_good(at, end, walk->safe, false, walk->update, lists))
                return false;
        } else if (tag == TAG_SG3D) {
            kind = KIND_SG3D;
            if ((length - 1) % 12 != 0 || before == KIND_SG2D)
                return false;
            add_soundings(shape, at, (length - 1) / 12, file->north);
        } else if (walk->update && (tag == TAG_VRPC || tag == TAG_SGCC)) {
            kind = tag == TAG_VRPC ? KIND_VRPC : KIND_SGCC;
            if (length != 6 || kind == before)
                return false;
            editing = true;
        } else {
            return false;
        }
        if (kind < before || !(file->declared >> kind & 1))
            return false;
        if (walk->held_lengths)
            sizes_add(sizes, length, due, kind == before);
        before = kind;
        due += length;
        row += width;
    }
    return row == stop && due == opened->area;
}

static const uint8_t ranks[256] = {[110] = 1 + ISOLATED, [120] = 1 + CONNECTED, [130] = 1 + EDGE};

ALWAYS void note_place(const struct walk *walk, const uint8_t *at, size_t record, uint32_t length, uint32_t body, uint32_t held)
{
    struct place *place = &places[walk->file->first + record];
    place->start = at;
    place->length = length;
    place->body = body;
    place->feature = (uint32_t)feature_count;
    if (walk->held_lengths)
        place->held = held | (walk->update && editing ? EDITING : 0);
    if (walk->update)
        editing = false;
}

ALWAYS void note_name(struct names *names, uint32_t id, uint32_t record)
{
    size_t count = names->count++;
    names->rising &= count == 0 || id > names->ids[count - 1];
    names->ids[count] = id;
    names->records[count] = record;
}

/* RCNM, RCID, RVER, RUIN: the class and 1, or 0 where a value is wrong. */
ALWAYS uint32_t vector_rank(const struct walk *walk, uint64_t identifier)
{
    uint32_t id = (uint32_t)(identifier >> 8), rank = ranks[identifier & 0xFF];
    bool good = id - 1 < UINT32_C(0xFFFFFFFE) && (identifier >> 40 & 0xFFFF) != 0 && (identifier >> 56) - 1 < (walk->update ? 3u : 1u);
    return good ? rank : 0;
}

ALWAYS void note_vector(const struct walk *walk, uint64_t identifier, size_t record, const struct shape *shape)
{
    struct chart *chart = &walk->file->chart;
    enum class class = ranks[identifier & 0xFF] - 1;
    struct names *names = &chart->names[class];
    if (class == EDGE)
        chart->ends[names->count] = shape->at;
    note_name(names, (uint32_t)(identifier >> 8), (uint32_t)(walk->file->first + record) | (unshaped(class, shape) ? UNSHAPED : 0));
}

ALWAYS bool take_vector(const struct walk *walk, const uint8_t *at, const struct opened *opened, size_t record)
{
    struct shape shape = {0};
    struct sizes sizes = {.rows = 2, .longest = 9, .run = 9, .last = 3};
    const uint8_t *body = opened->body;
    uint64_t identifier = eight(body + 3);
    if (body[2] != FIELD_END || body[11] != FIELD_END || vector_rank(walk, identifier) == 0 || !vector_lists_good(walk, opened, &shape, &sizes))
        return false;
    note_vector(walk, identifier, record, &shape);
    note_place(walk, at, record, opened->length, (uint32_t)(body - at), walk->held_lengths ? length_held(opened, &sizes) : 0);
    return true;
}

/* ---- features */

/* FSPT in several fields is put together. */
static SELDOM void join_spatial(struct feature *feature, const uint8_t *at, uint32_t length)
{
    uint8_t *end = joined + joined_length;
    if (feature->spatial + feature->spatial_length != end || feature->spatial < joined || feature->spatial >= joined + sizeof joined) {
        memcpy(end, feature->spatial, feature->spatial_length);
        feature->spatial = end;
        joined_length += feature->spatial_length;
    }
    memcpy(joined + joined_length, at, length);
    joined_length += length;
    feature->spatial_length += length;
}

ALWAYS bool feature_lists_good(const struct walk *walk, const struct opened *opened, struct feature *feature, struct sizes *sizes)
{
    const struct file *file = walk->file;
    const uint8_t *row = opened->rows + 3u * opened->form->width, *stop = opened->stop;
    const size_t width = opened->form->width;
    uint32_t due = 25;
    enum kind before = KIND_FOID;
    while ((size_t)(stop - row) >= width) {
        uint32_t tag = four(row), length = field_due(opened, row, due);
        const uint8_t *at = opened->body + due, *end = at + length - 1;
        enum kind kind;
        if (length < 2)
            return false;
        if (tag == TAG_ATTF) {
            kind = KIND_ATTF;
            lists += before != KIND_ATTF;
            if (!attributes_good(at, end, walk->safe, file->high_attributes, walk->update, lists))
                return false;
        } else if (tag == TAG_FSPT) {
            kind = KIND_FSPT;
            if ((length - 1) % 8 != 0)
                return false;
            if (before == KIND_FSPT) {
                join_spatial(feature, at, length - 1);
            } else {
                feature->spatial = at;
                feature->spatial_length = length - 1;
            }
        } else if (tag == TAG_NATF) {
            kind = KIND_NATF;
            lists += before != KIND_NATF;
            if (!attributes_good(at, end, walk->safe, file->high_national, walk->update, lists))
                return false;
        } else if (tag == TAG_FFPT) {
            kind = KIND_FFPT;
            if (!relations_good(at, end, walk->safe))
                return false;
        } else if (walk->update && (tag == TAG_FFPC || tag == TAG_FSPC)) {
            kind = tag == TAG_FFPC ? KIND_FFPC : KIND_FSPC;
            if (length != 6 || kind == before)
                return false;
            editing = true;
        } else {
            return false;
        }
        if (kind < before || !(file->declared >> kind & 1))
            return false;
        if (walk->held_lengths)
            sizes_add(sizes, length, due, kind == before);
        before = kind;
        due += length;
        row += width;
    }
    return row == stop && due == opened->area;
}

/* FRID and FOID of a feature whose lists come next. */
ALWAYS bool open_feature(const struct walk *walk, const uint8_t *body, struct feature *feature)
{
    uint64_t identifier = eight(body + 3);
    uint32_t rest = four(body + 11), id = (uint32_t)(identifier >> 8), primitive = identifier >> 40 & 0xFF;
    uint32_t class = (uint32_t)(identifier >> 56) | (rest & 0xFF) << 8;
    if ((identifier & 0xFF) != 100 || id - 1 >= UINT32_C(0xFFFFFFFE) || (primitive - 1 > 2 && primitive != 255) || class - 1 > 400 ||
        (rest >> 8 & 0xFFFF) == 0 || (rest >> 24) - 1 >= (walk->update ? 3u : 1u))
        return false;
    *feature = (struct feature){.object = eight(body + 16), .relation = (uint32_t)relation_count, .primitive = (uint8_t)primitive,
                                .collection = class >= 400};
    return body[2] == FIELD_END && body[15] == FIELD_END && body[24] == FIELD_END;
}

ALWAYS void note_feature(const struct walk *walk, const uint8_t *body, size_t record, struct feature *feature)
{
    struct chart *chart = &walk->file->chart;
    uint32_t class = two(body + 10);
    feature->relations = (uint32_t)relation_count - feature->relation;
    note_name(&chart->names[FEATURE], four(body + 4), (uint32_t)(walk->file->first + record));
    chart->counted[class < 300 ? NOGR : class < 400 ? NOMR : NOLR]++;
}

ALWAYS bool take_feature(const struct walk *walk, const uint8_t *at, const struct opened *opened, size_t record)
{
    struct sizes sizes = {.rows = 3, .longest = 13, .run = 9, .last = 16};
    const uint8_t *body = opened->body;
    struct feature *feature = &features[feature_count];
    if (!open_feature(walk, body, feature) || !feature_lists_good(walk, opened, feature, &sizes))
        return false;
    note_feature(walk, body, record, feature);
    note_place(walk, at, record, opened->length, (uint32_t)(body - at), walk->held_lengths ? length_held(opened, &sizes) : 0);
    feature_count++;
    return true;
}

/* ---- plans: records with the same leader and directory, but for the leader's free bytes, have the same fields at the same places. What was found of one
   is kept, and the next one is compared with it. Only records with few fields, each list in one, have a plan. */

enum { PLANS = 1024, LEAST_PLANNED = 64, PLAN_WORDS = 12, PLAN_ROWS = 6, LEADER_WORDS = 3 };

struct plan {
    uint64_t word[PLAN_WORDS], last_mask;
    uint32_t seen;  /* the key of the last record that came here and found another's plan: the second such gets its own */
    uint32_t words; /* none: nothing is kept here */
    uint32_t length, body, held, rows;
    bool feature;
    struct {
        enum kind kind;
        uint32_t start, length; /* the 1E not counted */
    } row[PLAN_ROWS];
};

static struct plan plans[PLANS];

/* Length, D, base address, sizes. */
static const uint64_t LEADER_MASK[LEADER_WORDS] = {UINT64_C(0x00FF00FFFFFFFFFF), UINT64_C(0xFFFFFFFF00000000), UINT64_C(0xFFFFFFFF000000FF)};

/* Of bytes that tell a record's leader and directory apart from others: two numbers of the leader, and what the third row mostly begins with. */
ALWAYS uint32_t plan_key(const uint8_t *at)
{
    uint64_t third = eight(at + 37) * UINT64_C(0xD6E8FEB86659FD93);
    return (four(at + 1) + 31 * four(at + 13)) * UINT32_C(0x9E3779B1) + (uint32_t)(third >> 32);
}

ALWAYS struct plan *plan_for(uint32_t key)
{
    return &plans[key >> 22];
}

ALWAYS bool plan_fits(const struct plan *plan, const uint8_t *at, size_t left)
{
    if (plan->words == 0 || left < plan->length)
        return false;
    uint64_t other = ((eight(at) ^ plan->word[0]) & LEADER_MASK[0]) | ((eight(at + 8) ^ plan->word[1]) & LEADER_MASK[1]) |
                     ((eight(at + 16) ^ plan->word[2]) & LEADER_MASK[2]);
    size_t i = LEADER_WORDS;
    for (; i + 1 < plan->words; i++)
        other |= eight(at + 8 * i) ^ plan->word[i];
    return (other | ((eight(at + 8 * i) ^ plan->word[i]) & plan->last_mask)) == 0;
}

static bool may_have(const struct walk *walk, enum kind kind, enum kind before, uint32_t length)
{
    if (kind == KINDS || kind <= before || !(walk->file->declared >> kind & 1) || length < 2)
        return false;
    switch (kind) {
    case KIND_VRPC:
    case KIND_SGCC:
    case KIND_FFPC:
    case KIND_FSPC:
        return walk->update && length == 6;
    case KIND_VRPT:
        return (length - 1) % 9 == 0;
    case KIND_SG2D:
    case KIND_FSPT:
        return (length - 1) % 8 == 0;
    case KIND_SG3D:
        return (length - 1) % 12 == 0 && before != KIND_SG2D;
    case KIND_ATTV:
    case KIND_ATTF:
    case KIND_NATF:
    case KIND_FFPT:
        return true;
    default:
        return false;
    }
}

ALWAYS enum kind list_kind(uint32_t tag)
{
    switch (tag) {
    case TAG_SG2D:
        return KIND_SG2D;
    case TAG_VRPT:
        return KIND_VRPT;
    case TAG_ATTV:
        return KIND_ATTV;
    case TAG_ATTF:
        return KIND_ATTF;
    case TAG_FSPT:
        return KIND_FSPT;
    case TAG_NATF:
        return KIND_NATF;
    case TAG_FFPT:
        return KIND_FFPT;
    default:
        return kind_of(tag);
    }
}

/* Fills a plan with the rows behind the identifiers; false where the record is none for a plan. */
ALWAYS bool plan_rows(const struct walk *walk, struct plan *plan, const struct opened *opened, struct sizes *sizes)
{
    const size_t width = opened->form->width;
    const uint8_t *row = opened->rows + (plan->feature ? 3 : 2) * width;
    uint32_t due = plan->feature ? 25 : 12;
    enum kind before = plan->feature ? KIND_FOID : KIND_VRID;
    const enum kind last = plan->feature ? KIND_FSPT : KIND_SG3D;
    for (plan->rows = 0; (size_t)(opened->stop - row) >= width; row += width) {
        uint32_t length = field_due(opened, row, due);
        enum kind kind = list_kind(four(row));
        if (plan->rows == PLAN_ROWS || kind > last || !may_have(walk, kind, before, length))
            return false;
        plan->row[plan->rows].kind = kind;
        plan->row[plan->rows].start = due;
        plan->row[plan->rows++].length = length - 1;
        sizes_add(sizes, length, due, false);
        due += length;
        before = kind;
    }
    return row == opened->stop && due == opened->area;
}

ALWAYS bool plan_make(const struct walk *walk, struct plan *plan, const uint8_t *at, const struct opened *opened)
{
    const struct sizes vector = {.rows = 2, .longest = 9, .run = 9, .last = 3}, feature = {.rows = 3, .longest = 13, .run = 9, .last = 16};
    plan->words = 0;
    plan->body = (uint32_t)(opened->body - at);
    if (plan->body > 8 * PLAN_WORDS)
        return false;
    plan->feature = !is_vector(opened);
    if (plan->feature && !is_feature(opened))
        return false;
    struct sizes sizes = plan->feature ? feature : vector;
    if (!plan_rows(walk, plan, opened, &sizes))
        return false;
    plan->length = opened->length;
    plan->words = (plan->body + 7) / 8;
    plan->last_mask = UINT64_MAX >> 8 * (8 * plan->words - plan->body);
    for (size_t i = 0; i < plan->words; i++)
        plan->word[i] = eight(at + 8 * i);
    plan->held = walk->held_lengths ? length_held(opened, &sizes) : 0;
    return true;
}

/* ---- records by a plan */

ALWAYS bool run_vector(const struct walk *walk, const struct plan *plan, const uint8_t *at, size_t record)
{
    const uint8_t *body = at + plan->body;
    struct shape shape = {0};
    uint64_t identifier = eight(body + 3);
    if (body[2] != FIELD_END || body[11] != FIELD_END || vector_rank(walk, identifier) == 0)
        return false;
    for (size_t i = 0; i < plan->rows; i++) {
        const uint32_t length = plan->row[i].length;
        const uint8_t *from = body + plan->row[i].start, *end = from + length;
        if (*end != FIELD_END)
            return false;
        switch (plan->row[i].kind) {
        case KIND_SG2D:
            add_pairs(&shape, from, length / 8, walk->file->north);
            break;
        case KIND_VRPT:
            add_pointers(&shape, from, end);
            break;
        case KIND_ATTV:
            if (!attributes_good(from, end, walk->safe, false, walk->update, ++lists))
                return false;
            break;
        case KIND_SG3D:
            add_soundings(&shape, from, length / 12, walk->file->north);
            break;
        default:
            editing = true;
            break;
        }
    }
    note_vector(walk, identifier, record, &shape);
    note_place(walk, at, record, plan->length, plan->body, plan->held);
    return true;
}

ALWAYS bool run_feature(const struct walk *walk, const struct plan *plan, const uint8_t *at, size_t record)
{
    const struct file *file = walk->file;
    const uint8_t *body = at + plan->body;
    struct feature *feature = &features[feature_count];
    if (!open_feature(walk, body, feature))
        return false;
    for (size_t i = 0; i < plan->rows; i++) {
        const uint8_t *from = body + plan->row[i].start, *end = from + plan->row[i].length;
        bool good = *end == FIELD_END;
        switch (plan->row[i].kind) {
        case KIND_ATTF:
            good = good && attributes_good(from, end, walk->safe, file->high_attributes, walk->update, ++lists);
            break;
        case KIND_FSPT:
            feature->spatial = from;
            feature->spatial_length = plan->row[i].length;
            break;
        case KIND_NATF:
            good = good && attributes_good(from, end, walk->safe, file->high_national, walk->update, ++lists);
            break;
        case KIND_FFPT:
            good = good && relations_good(from, end, walk->safe);
            break;
        default:
            editing = true;
            break;
        }
        if (!good)
            return false;
    }
    note_feature(walk, body, record, feature);
    note_place(walk, at, record, plan->length, plan->body, plan->held);
    feature_count++;
    return true;
}

/* ---- the walk: vectors first, then features alone */

/* A record without a plan. */
ALWAYS bool take_other(const struct walk *walk, const uint8_t *at, const struct opened *opened, size_t record, bool *features_only)
{
    if (!*features_only && is_vector(opened))
        return take_vector(walk, at, opened, record);
    *features_only = true;
    return is_feature(opened) && take_feature(walk, at, opened, record);
}

enum { FIRST_CREDIT = 24, MOST_CREDIT = 64, MISS = 8, PAUSE = 500 };

/* VRID, FRID and FOID are looked for in record 0 once. */
ALWAYS const uint8_t *walk_all(const struct walk *walk, const uint8_t *at, size_t *record)
{
    const uint32_t declared = walk->file->declared, frid = UINT32_C(1) << KIND_FRID | UINT32_C(1) << KIND_FOID;
    const bool vectors_declared = declared >> KIND_VRID & 1, features_declared = (declared & frid) == frid;
    const uint8_t *end = walk->file->bytes + walk->file->length;
    bool features_only = false;
    size_t number = *record;
    /* where plans fit too seldom they cost more than they bring: then they are left alone for a while */
    int32_t credit = FIRST_CREDIT;
    uint32_t pause = 0;
    while (at < end) {
        const size_t left = (size_t)(end - at);
        struct opened opened;
        if (pause > 0) {
            pause--;
        } else if (left >= LEAST_PLANNED) {
            const uint32_t key = plan_key(at);
            struct plan *plan = plan_for(key);
            if (!plan_fits(plan, at, left) && (plan->seen != key || !open_record(at, left, &opened) || !plan_make(walk, plan, at, &opened))) {
                plan->seen = key;
                credit -= MISS;
                if (credit < 0) {
                    pause = PAUSE;
                    credit = FIRST_CREDIT;
                }
            } else {
                credit += credit < MOST_CREDIT;
                features_only |= plan->feature;
                if (features_only != plan->feature || !(plan->feature ? features_declared && run_feature(walk, plan, at, number)
                                                                      : vectors_declared && run_vector(walk, plan, at, number)))
                    break;
                at += plan->length;
                number++;
                continue;
            }
        }
        if (!open_record(at, left, &opened) || !take_other(walk, at, &opened, number, &features_only) ||
            !(features_only ? features_declared : vectors_declared))
            break;
        at += opened.length;
        number++;
    }
    *record = number;
    return at;
}

static const uint8_t *walk_cell(struct file *file, const uint8_t *at, size_t *record, const uint8_t *safe)
{
    const struct walk walk = {file, safe, false, false};
    return walk_all(&walk, at, record);
}

static const uint8_t *walk_cell_held(struct file *file, const uint8_t *at, size_t *record, const uint8_t *safe)
{
    const struct walk walk = {file, safe, false, true};
    return walk_all(&walk, at, record);
}

static const uint8_t *walk_update(struct file *file, const uint8_t *at, size_t *record, const uint8_t *safe)
{
    const struct walk walk = {file, safe, true, true};
    return walk_all(&walk, at, record);
}

const uint8_t *walk_items(struct file *file, const uint8_t *at, size_t *record, bool held_lengths)
{
    make_forms();
    for (size_t i = 0; i < PLANS; i++)
        plans[i].words = plans[i].seen = 0;
    /* no file has as many lists as there are numbers left */
    if (lists > UINT32_MAX - LONGEST_FILE) {
        memset(met, 0, sizeof met);
        lists = 0;
    }
    /* a record that wasn't good may have left it */
    editing = false;
    const uint8_t *safe = file->bytes + file->length - 8;
    at = (file->update ? walk_update : held_lengths ? walk_cell_held : walk_cell)(file, at, record, safe);
    uint32_t *counted = file->chart.counted;
    counted[NOIN] = (uint32_t)file->chart.names[ISOLATED].count;
    counted[NOCN] = (uint32_t)file->chart.names[CONNECTED].count;
    counted[NOED] = (uint32_t)file->chart.names[EDGE].count;
    return at;
}
