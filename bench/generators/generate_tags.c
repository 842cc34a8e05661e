/* The table of tags, as the generator writes it down. */
#include "generate_chart.h"

#include <stdlib.h>
#include <string.h>

#define ATTRIBUTES true, 2, {{"ATTL", "b12"}, {"ATVL", "A"}}

const struct tag_row tag_rows[TAGS] = {
    {"0001", "0500;&   ", "ISO 8211 Record Identifier", false, 1, {{"", "b12"}}},
    {"DSID", "1600;&   ", "Data set identification field", false, 16,
     {{"RCNM", "b11"}, {"RCID", "b14"}, {"EXPP", "b11"}, {"INTU", "b11"}, {"DSNM", "A"}, {"EDTN", "A"}, {"UPDN", "A"}, {"UADT", "A(8)"},
      {"ISDT", "A(8)"}, {"STED", "R(4)"}, {"PRSP", "b11"}, {"PSDN", "A"}, {"PRED", "A"}, {"PROF", "b11"}, {"AGEN", "b12"}, {"COMT", "A"}}},
    {"DSSI", "1600;&   ", "Data set structure information field", false, 11,
     {{"DSTR", "b11"}, {"AALL", "b11"}, {"NALL", "b11"}, {"NOMR", "b14"}, {"NOCR", "b14"}, {"NOGR", "b14"}, {"NOLR", "b14"},
      {"NOIN", "b14"}, {"NOCN", "b14"}, {"NOED", "b14"}, {"NOFA", "b14"}}},
    {"DSPM", "1600;&   ", "Data set parameter field", false, 13,
     {{"RCNM", "b11"}, {"RCID", "b14"}, {"HDAT", "b11"}, {"VDAT", "b11"}, {"SDAT", "b11"}, {"CSCL", "b14"}, {"DUNI", "b11"},
      {"HUNI", "b11"}, {"PUNI", "b11"}, {"COUN", "b11"}, {"COMF", "b14"}, {"SOMF", "b14"}, {"COMT", "A"}}},
    {"VRID", "1600;&   ", "Vector record identifier field", false, 4,
     {{"RCNM", "b11"}, {"RCID", "b14"}, {"RVER", "b12"}, {"RUIN", "b11"}}},
    {"ATTV", "2600;&   ", "Vector record attribute field", ATTRIBUTES},
    {"ATTF", "2600;&-A ", "Feature record attribute field", ATTRIBUTES},
    {"NATF", "2600;&-A ", "Feature record national attribute field", ATTRIBUTES},
    {"VRPT", "2600;&   ", "Vector record pointer field", true, 5,
     {{"NAME", "B(40)"}, {"ORNT", "b11"}, {"USAG", "b11"}, {"TOPI", "b11"}, {"MASK", "b11"}}},
    {"SG2D", "2500;&   ", "2-D coordinate field", true, 2, {{"YCOO", "b24"}, {"XCOO", "b24"}}},
    {"SG3D", "2500;&   ", "3-D coordinate (sounding array) field", true, 3, {{"YCOO", "b24"}, {"XCOO", "b24"}, {"VE3D", "b24"}}},
    {"FRID", "1600;&   ", "Feature record identifier field", false, 7,
     {{"RCNM", "b11"}, {"RCID", "b14"}, {"PRIM", "b11"}, {"GRUP", "b11"}, {"OBJL", "b12"}, {"RVER", "b12"}, {"RUIN", "b11"}}},
    {"FOID", "1600;&   ", "Feature object identifier field", false, 3, {{"AGEN", "b12"}, {"FIDN", "b14"}, {"FIDS", "b12"}}},
    {"FFPT", "2600;&   ", "Feature record to feature object pointer field", true, 3, {{"LNAM", "B(64)"}, {"RIND", "b11"}, {"COMT", "A"}}},
    {"FSPT", "2600;&   ", "Feature record to spatial record pointer field", true, 4,
     {{"NAME", "B(40)"}, {"ORNT", "b11"}, {"USAG", "b11"}, {"MASK", "b11"}}},
    {"VRPC", "1600;&   ", "Vector record pointer control field", false, 3, {{"VPUI", "b11"}, {"VPIX", "b12"}, {"NVPT", "b12"}}},
    {"SGCC", "1600;&   ", "Coordinate control field", false, 3, {{"CCUI", "b11"}, {"CCIX", "b12"}, {"CCNC", "b12"}}},
    {"FFPC", "1600;&   ", "Feature record to feature object pointer control field", false, 3,
     {{"FFUI", "b11"}, {"FFIX", "b12"}, {"NFPT", "b12"}}},
    {"FSPC", "1600;&   ", "Feature record to spatial record pointer control field", false, 3,
     {{"FSUI", "b11"}, {"FSIX", "b12"}, {"NSPT", "b12"}}},
};

const struct tag_row *row_of_tag(const char *tag)
{
    for (size_t i = 0; i < TAGS; i++)
        if (memcmp(tag_rows[i].tag, tag, 4) == 0)
            return &tag_rows[i];
    return NULL;
}

unsigned format_width(const char *format)
{
    if (format[0] == 'b')
        return (unsigned)(format[2] - '0');
    unsigned size = format[1] == '(' ? (unsigned)strtoul(format + 2, NULL, 10) : 0;
    return format[0] == 'B' ? size / 8 : size;
}
