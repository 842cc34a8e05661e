/* Show: a record's bytes by its name. */
#include "reader_parts.h"

/* Where the vector or feature of that name begins, or FINE where there is none. Record by record, as document 01 says it: the words of the names, by which
   the other stages look names up, know four classes only. */
static size_t named_record(const struct reading *reading, uint32_t class, uint32_t id)
{
    size_t names_from = reading->update ? 2 : 3, start = 0;
    for (size_t index = 0; index < reading->records; index++) {
        struct record record = reader_record(reading->bytes, start);
        const uint8_t *identifier = reading->bytes + reader_field(reading->bytes, &record, 1).start;
        if (index >= names_from && identifier[0] == class && number_at(identifier + 1, 4) == id)
            return start;
        start = record.end;
    }
    return FINE;
}

static bool show_record(const struct reading *reading, uint32_t class, uint32_t id, struct shown *shown)
{
    size_t start = named_record(reading, class, id);
    if (start == FINE)
        return false;
    shown->answer = (struct answer){.number = (uint32_t)(reader_record(reading->bytes, start).end - start)};
    shown->part = reading->bytes + start;
    return true;
}

struct shown reader_show(const uint8_t *cell, size_t cell_length, const uint8_t *update, size_t update_length, size_t work_length, uint32_t class,
                         uint32_t id)
{
    struct reading base = {.bytes = cell, .length = cell_length};
    struct reading change = {.bytes = update, .length = update_length, .update = true};
    bool both = update_length > 0;
    struct shown shown = {.answer = read_files(&base, both ? &change : NULL, work_length), .part = cell};
    if (shown.answer.code == CODE_DONE && !(both && show_record(&change, class, id, &shown)) && !show_record(&base, class, id, &shown))
        shown.answer = (struct answer){.code = CODE_ABSENT};
    reading_close(&base);
    reading_close(&change);
    return shown;
}
