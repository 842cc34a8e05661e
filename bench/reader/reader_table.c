/* The table of tags: what record 0 must say of each, and the shape of its fields. */
#include "reader_parts.h"

/* Primitives as reader_formats writes them out: letter + 256 * size. */
enum {
    B11 = 'b' + 256 * 11,
    B12 = 'b' + 256 * 12,
    B14 = 'b' + 256 * 14,
    B24 = 'b' + 256 * 24,
    TEXT = 'A',
    TEXT_8 = 'A' + 256 * 8,
    REAL_4 = 'R' + 256 * 4,
    BITS_40 = 'B' + 256 * 40,
    BITS_64 = 'B' + 256 * 64,
};

#define ATTRIBUTES true, {2, RUN_TEXT, RUNS_END}, "*ATTL!ATVL", 2, {B12, TEXT}
#define CONTROL(labels) false, {5, RUNS_END}, labels, 3, {B11, B12, B12}

const struct description table[KINDS] = {
    [KIND_0001] = {TAG_0001, false, {2, RUNS_END}, "", 1, {B12}},
    [KIND_DSID] = {TAG_DSID, false, {7, RUN_TEXT, RUN_TEXT, RUN_TEXT, 21, RUN_TEXT, RUN_TEXT, 3, RUN_TEXT, RUNS_END},
                   "RCNM!RCID!EXPP!INTU!DSNM!EDTN!UPDN!UADT!ISDT!STED!PRSP!PSDN!PRED!PROF!AGEN!COMT", 16,
                   {B11, B14, B11, B11, TEXT, TEXT, TEXT, TEXT_8, TEXT_8, REAL_4, B11, TEXT, TEXT, B11, B12, TEXT}},
    [KIND_DSSI] = {TAG_DSSI, false, {35, RUNS_END}, "DSTR!AALL!NALL!NOMR!NOCR!NOGR!NOLR!NOIN!NOCN!NOED!NOFA", 11,
                   {B11, B11, B11, B14, B14, B14, B14, B14, B14, B14, B14}},
    [KIND_DSPM] = {TAG_DSPM, false, {24, RUN_TEXT, RUNS_END},
                   "RCNM!RCID!HDAT!VDAT!SDAT!CSCL!DUNI!HUNI!PUNI!COUN!COMF!SOMF!COMT", 13,
                   {B11, B14, B11, B11, B11, B14, B11, B11, B11, B11, B14, B14, TEXT}},
    [KIND_VRID] = {TAG_VRID, false, {8, RUNS_END}, "RCNM!RCID!RVER!RUIN", 4, {B11, B14, B12, B11}},
    [KIND_ATTV] = {TAG_ATTV, ATTRIBUTES},
    [KIND_VRPC] = {TAG_VRPC, CONTROL("VPUI!VPIX!NVPT")},
    [KIND_VRPT] = {TAG_VRPT, true, {9, RUNS_END}, "*NAME!ORNT!USAG!TOPI!MASK", 5, {BITS_40, B11, B11, B11, B11}},
    [KIND_SGCC] = {TAG_SGCC, CONTROL("CCUI!CCIX!CCNC")},
    [KIND_SG2D] = {TAG_SG2D, true, {8, RUNS_END}, "*YCOO!XCOO", 2, {B24, B24}},
    [KIND_SG3D] = {TAG_SG3D, true, {12, RUNS_END}, "*YCOO!XCOO!VE3D", 3, {B24, B24, B24}},
    [KIND_FRID] = {TAG_FRID, false, {12, RUNS_END}, "RCNM!RCID!PRIM!GRUP!OBJL!RVER!RUIN", 7, {B11, B14, B11, B11, B12, B12, B11}},
    [KIND_FOID] = {TAG_FOID, false, {8, RUNS_END}, "AGEN!FIDN!FIDS", 3, {B12, B14, B12}},
    [KIND_ATTF] = {TAG_ATTF, ATTRIBUTES},
    [KIND_NATF] = {TAG_NATF, ATTRIBUTES},
    [KIND_FFPC] = {TAG_FFPC, CONTROL("FFUI!FFIX!NFPT")},
    [KIND_FFPT] = {TAG_FFPT, true, {9, RUN_TEXT, RUNS_END}, "*LNAM!RIND!COMT", 3, {BITS_64, B11, TEXT}},
    [KIND_FSPC] = {TAG_FSPC, CONTROL("FSUI!FSIX!NSPT")},
    [KIND_FSPT] = {TAG_FSPT, true, {8, RUNS_END}, "*NAME!ORNT!USAG!MASK", 4, {BITS_40, B11, B11, B11}},
};
