#!/bin/sh
# Opens cells and their re-issues with another reader, GDAL's ogrinfo, and compares what it reads of both: the layers, and of each vector and feature all
# attributes, pointers and the geometry. Then it lets GDAL apply series of updates to the same cells, and compares what it reads then with what it reads of the
# re-issue that has the same updates worked in. No part of the gate.
# usage: bench/tests/gdal.sh [COUNT [FIRST_SEED]]
# Takes samples/harbour.000 and COUNT cells of make_cells, default 20 from seed 1, with their updates. Wants what `make -C host` and bench/build.sh build; where
# ogrinfo is missing it installs Debian's gdal-bin, as root. The re-issues are the example host's, host/unit. Other commands may make them, of a cell:
# $REISSUE CELL OUT, and of a cell with updates: $SERIES CELL UPDATE.. OUT.
# Prints two tables, and ends with 'N passed, M failed'; the status is 0 only where nothing failed.
set -eu
export LC_ALL=C

top=$(cd "$(dirname "$0")/../.." && pwd -P)
programs=${BENCH_OUT:-$top/target/bench}
[ -x "$programs/make_cells" ] || { echo "bench/tests/gdal.sh: no $programs/make_cells: bench/build.sh builds it" >&2; exit 2; }
{ [ -n "${REISSUE:-}" ] && [ -n "${SERIES:-}" ]; } || [ -x "$top/target/host/unit" ] || { echo "bench/tests/gdal.sh: no $top/target/host/unit: make -C host makes it" >&2; exit 2; }
if ! command -v ogrinfo >/dev/null 2>&1; then
    apt-get update </dev/null >&2
    DEBIAN_FRONTEND=noninteractive apt-get install -y --no-install-recommends gdal-bin </dev/null >&2
fi
work=$(mktemp -d)
trap 'rm -rf "$work"' EXIT

# Vectors as layers of their own, the entries of VRPT and FSPT as attributes, FFPT too; numbers without a value told from absent ones; no file beside it.
options=RETURN_PRIMITIVES=ON,RETURN_LINKAGES=ON,LNAM_REFS=ON,PRESERVE_EMPTY_NUMBERS=ON

# ---- what ogrinfo reads

# A line for each layer's head and for each vector or feature, its parts parted by tabs. What may differ goes: the FID, which is GDAL's own count in the
# file's order, and the leading zeros of EDTN and UPDN; where GDAL applies updates also UADT and DSSI's counts, which it leaves as the base has them.
# shellcheck disable=SC2016
flat='
function put() { if (line != "") print line; line = "" }
/^Layer name: / { put(); layer = substr($0, 13); line = layer "\thead"; next }
/^OGRFeature\(/ { put(); line = layer "\tfeature"; next }
/^$/ { put(); next }
/^  DSID_(EDTN|UPDN) \(String\) = 0+$/ { sub(/= 0+$/, "= 0") }
/^  DSID_(EDTN|UPDN) \(String\) = 0+[1-9]/ { sub(/= 0+/, "= ") }
updates == "APPLY" && /^  (DSID_UADT|DSSI_NO[A-Z][A-Z]) / { next }
layer != "" { line = line "\t" $0 }
END { put() }'

# Counts them as columns of the table.
# shellcheck disable=SC2016
columns='
BEGIN { FS = "\t" }
$2 == "head" { layers++; next }
$1 ~ /^(IsolatedNode|ConnectedNode|Edge)$/ { vectors++ }
$1 !~ /^(IsolatedNode|ConnectedNode|Edge|DSID)$/ { features++ }
{ for (i = 3; i <= NF; i++) if ($i ~ /^  [A-Za-z0-9_]+ \([A-Za-z]+\) = /) attributes++; else geometries++ }
END { printf "%d | %d | %d | %d | %d", layers, vectors, features, attributes, geometries }'

# The updates beside the file are taken with APPLY, and left with IGNORE. What is said on standard error goes to OUT.words.
told() { # FILE OUT [APPLY]
    updates=${3:-IGNORE}
    OGR_S57_OPTIONS=$options,UPDATES=$updates ogrinfo -ro -al "$1" >"$2.all" 2>"$2.words" || echo "ogrinfo ended with status $?" >>"$2.words"
    awk -v "updates=$updates" "$flat" "$2.all" | sort >"$2"
}

# ---- one cell

reissue() { # CELL OUT
    if [ -n "${REISSUE:-}" ]; then
        $REISSUE "$1" "$2" # a command may have several words
        return
    fi
    mkdir -p "$work/unit"
    "$top/host/unit.sh" admit "$1" "$work/unit" >/dev/null && mv "$work/unit/cell.000" "$2"
}

series() { # OUT CELL UPDATE..
    out=$1
    shift
    if [ -n "${SERIES:-}" ]; then
        $SERIES "$@" "$out" # a command may have several words
        return
    fi
    mkdir -p "$work/unit"
    "$top/host/unit.sh" admit "$1" "$work/unit" >/dev/null || return
    shift
    "$top/host/unit.sh" follow "$work/unit" "$@" >/dev/null && mv "$work/unit/cell.000" "$out"
}

passed=0
failed=0
all=$work/all
: >"$all"

# What was told of both: a row of the table, with the columns before the counts, and the verdict.
row() { # COLUMNS
    comm -3 "$work/cell.told" "$work/held.told" >"$work/differences"
    cat "$work/cell.told.words" "$work/held.told.words" >"$work/words"
    differences=$(wc -l <"$work/differences")
    words=$(wc -l <"$work/words")
    echo "| $1 | $(awk "$columns" "$work/cell.told") | $words | $differences |"
    cat "$work/cell.told" >>"$all"
    if [ "$differences" -eq 0 ] && [ "$words" -eq 0 ] && [ -s "$work/cell.told" ]; then
        passed=$((passed + 1))
    else
        failed=$((failed + 1))
        head -n 6 "$work/words" >&2
        # comm puts a tab before what only the second has
        awk '{ print (/^\t/ ? "re-issue:" : "cell:\t") $0 }' "$work/differences" | head -n 6 | cut -c 1-600 >&2
    fi
    rm "$work/held.000"
}

no_reissue() { # NAME
    echo "| $1 | no re-issue |"
    failed=$((failed + 1))
}

# READ is what ogrinfo opens in the cell's place: the cell itself, or the same cell written in another way.
compare() { # NAME CELL READ
    if ! reissue "$2" "$work/held.000"; then
        no_reissue "$1"
        return
    fi
    told "$3" "$work/cell.told"
    told "$work/held.000" "$work/held.told"
    row "$1"
}

# The same of a cell with the updates that stand beside it, as .001 and so on. The updates must have changed something.
compare_series() { # NAME CELL READ
    name=$1
    opened=$3
    set -- "$2" "${2%.000}".00[1-9]
    if ! series "$work/held.000" "$@"; then
        no_reissue "$name"
        return
    fi
    told "$opened" "$work/base.told"
    told "$opened" "$work/cell.told" APPLY
    told "$work/held.000" "$work/held.told" APPLY
    changed=$(comm -13 "$work/base.told" "$work/cell.told" | grep -c -v "$(printf '\thead\t')") || true
    row "$name | $(($# - 1)) | $changed"
    if [ "$changed" -lt 2 ]; then
        echo "$name: the updates changed nothing" >&2
        failed=$((failed + 1))
    fi
}

# ---- all cells

# Built for this very machine, with the address sanitizer: see bench/run.sh.
fixed=
if setarch "$(uname -m)" -R true 2>/dev/null; then
    fixed="setarch $(uname -m) -R"
fi

ogrinfo --version
echo
echo '| cell | layers | vectors | features | attributes | geometries | warnings | differences |'
echo '|---|---:|---:|---:|---:|---:|---:|---:|'
compare harbour "$top/samples/harbour.000" "$top/samples/harbour.000"

mkdir "$work/cells"
$fixed "$programs/make_cells" "$work/cells" "${1:-20}" "${2:-1}" || failed=$((failed + 1))

# GDAL doesn't read lists in several fields: where a cell has them it gets a copy that has each list in one.
each() { # COMMAND
    for cell in "$work"/cells/*[0-9].000; do
        [ -f "$cell" ] || continue
        name=$(basename "$cell" .000)
        if [ -f "$work/cells/$name-joined.000" ]; then
            "$1" "$name, lists in several fields" "$cell" "$work/cells/$name-joined.000"
        else
            "$1" "$name" "$cell" "$cell"
        fi
    done
}

each compare
echo "| all | $(awk "$columns" "$all") | | |"
echo
echo '| cell with updates | updates | changed | layers | vectors | features | attributes | geometries | warnings | differences |'
echo '|---|---:|---:|---:|---:|---:|---:|---:|---:|---:|'
: >"$all"
cp "$top"/samples/harbour.00* "$work"
compare_series harbour "$work/harbour.000" "$work/harbour.000"
each compare_series
echo "| all | | | $(awk "$columns" "$all") | | |"
echo
echo "$passed passed, $failed failed"
[ "$failed" -eq 0 ]
