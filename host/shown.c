#include "shown.h"

#include <string.h>

/* Record 1 begins where record 0 ends. Its first field is 0001, a number of two bytes and 1E; then comes DSID: RCNM, RCID, EXPP and INTU, which are 1, 4, 1
   and 1 bytes, DSNM, EDTN and UPDN, texts that end in 1F, and UADT and ISDT, 8 letters each. */
enum { RECORD_LENGTH = 0, BASE_ADDRESS = 12, RUNNING_NUMBER = 2 + 1, BEFORE_NAME = 1 + 4 + 1 + 1, NAME = 12, SHORT_NAME = 8, DATE = 8, UNIT_END = 0x1F };

/* A number in a leader, five digits. */
static unsigned leader_number(const uint8_t *at)
{
    unsigned number = 0;
    for (int i = 0; i < 5; i++)
        number = number * 10 + (unsigned)(at[i] - '0');
    return number;
}

/* A number in a text. Moves on behind its 1F. */
static unsigned text_number(const uint8_t **at)
{
    unsigned number = 0;
    for (; **at != UNIT_END; ++*at)
        number = number * 10 + (unsigned)(**at - '0');
    ++*at;
    return number;
}

struct shown shown_read(const uint8_t *cell)
{
    struct shown shown = {0};
    const uint8_t *record = cell + leader_number(cell + RECORD_LENGTH);
    const uint8_t *at = record + leader_number(record + BASE_ADDRESS) + RUNNING_NUMBER + BEFORE_NAME;
    memcpy(shown.name, at, SHORT_NAME);
    at += NAME + 1;
    shown.edition = text_number(&at);
    shown.number = text_number(&at);
    memcpy(shown.updated, at, DATE);
    memcpy(shown.issued, at + DATE, DATE);
    return shown;
}
