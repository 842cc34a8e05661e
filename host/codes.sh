#!/bin/sh
# What host/codes.txt has, in one of three forms, on standard output.
# usage: host/codes.sh texts    C, for host/common.c: the sentences of the codes that C is given, by code
#        host/codes.sh table    the lines of the mate's table in docs/CODES.md
#        host/codes.sh manual   the list of the manual page s57loader(3)
set -eu
codes=$(dirname "$0")/codes.txt
case ${1-} in
texts | table | manual) ;;
*) echo 'usage: host/codes.sh texts | table | manual' >&2; exit 2 ;;
esac

# A line without its four parts, or a code out of turn, is an error: nothing is left out unseen.
awk -F '|' -v form="$1" '
function quoted(text) { gsub(/["\\]/, "\\\\&", text); return "\"" text "\"" }
function plain(text) { gsub(/\\/, "\\e", text); return text }
function wrong(why) { print "host/codes.txt: line " NR ": " why | "cat >&2"; bad = 1; exit 1 }
/^#/ { next }
NF != 4 || $3 == "" || $4 == "" || ($2 == "") != ($1 == 0) { wrong("not a code, a name, what it means and what to do") }
$1 != due { wrong("the next code is " due) }
{
    due++
    constant = $1 == 0 ? "S57_DONE" : "S57_" toupper($2)
    given = $1 != 22
}
form == "table" { print "| " $1 ($2 == "" ? "" : " ") $2 " | " $3 " | " $4 " |" }
form == "manual" && given { print ".TP\n.BR " constant " \" (" $1 ")\"\n" plain($1 == 0 ? $3 : $3 " " $4) }
form == "texts" && given {
    same = same "_Static_assert(" constant " == " $1 ", \"host/codes.txt\");\n"
    if ($1 > 0)
        rows = rows "    [" constant "] = " quoted($3 " " $4) ",\n"
}
END {
    if (bad)
        exit 1
    if (form == "texts")
        printf "/* Made by host/codes.sh. */\n%s\nstatic const char *const texts[] = {\n%s};\n", same, rows
}
' "$codes"
