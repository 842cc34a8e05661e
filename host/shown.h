/* What a chart says of itself, for the screen. No answer of the loader has it: it is read from the chart. */
#ifndef HOST_SHOWN_H
#define HOST_SHOWN_H

#include <stdint.h>

struct shown {
    char name[9];               /* the first eight letters of DSNM, and 0 behind them */
    unsigned edition;           /* EDTN */
    unsigned number;            /* UPDN: the last update that is in, 0 for none */
    char updated[9], issued[9]; /* UADT and ISDT, YYYYMMDD, and 0 behind them */
};

/* Of a cell that s57_judge gives 0, which everything is that s57_admit and s57_apply write: so all that is read here is there. */
struct shown shown_read(const uint8_t *cell);

#endif
