#!/bin/sh
# Whether what README.md and docs/ name is there: files, crates, law files, must-fail edits, and the identifiers of
# docs/PROMISES.md and docs/READING.md; and whether docs/READING.md has the files' true line counts.
# Ends with the line 'N passed, M failed'. Wants nothing beyond a shell and GNU's usual tools.
# shellcheck disable=SC2016
set -u
LC_ALL=C
export LC_ALL
cd "$(dirname "$0")/.." || exit 2
dir=$(mktemp -d) || exit 2
trap 'rm -rf "$dir"' EXIT
passed=0
failed=0

# every line of $2 stands in $3 (both sorted), or it is named as a failure
all_in() {
    comm -23 "$2" "$3" >"$dir/lost"
    lost=$(wc -l <"$dir/lost")
    sed "s|^|$1: |" "$dir/lost"
    passed=$((passed + $(wc -l <"$2") - lost))
    failed=$((failed + lost))
}

# what backticks enclose in the files named
quoted() {
    grep -ho '`[^`]*`' "$@" | tr -d '`'
}

# ---- files: paths from the top, folders too; NAME and FILE stand for names, and a star for more than one
grep -hoE '(^|[^A-Za-z0-9_/.-])(crates|host|bench|docs|samples|\.ci)/[A-Za-z0-9_./*-]*' README.md docs/*.md |
    sed -e 's|^[^a-z.]||' -e 's|[.,:-]*$||' | grep -vE '(NAME|FILE|FOLDER|\*)' | sort -u >"$dir/paths"
while read -r path; do
    if [ -e "$path" ]; then echo "$path"; fi
done <"$dir/paths" >"$dir/there"
all_in 'no such file' "$dir/paths" "$dir/there"

# ---- files named behind their folder; one is the C library's
find crates crates.txt host bench docs samples -type f | sed 's|.*/||' | sort -u >"$dir/names"
grep -hoE '[A-Za-z0-9_-]+\.(antt|rt|c|h|sh|md|txt)\b' README.md docs/*.md | grep -vE '^(NAME|FILE|stdio\.h$)' | sort -u >"$dir/named"
all_in 'no file of this name' "$dir/named" "$dir/names"

# ---- law files, by the name alone
find crates -path '*/proofs/*' -name '*Laws.antt' | sed -e 's|.*/||' -e 's|\.antt$||' | sort -u >"$dir/laws"
grep -hoE '\b[A-Z][A-Za-z]*Laws\b' README.md docs/PROMISES.md docs/READING.md docs/DECISIONS.md docs/CODES.md docs/HELD-FORM.md | sort -u >"$dir/cited"
all_in 'no law file' "$dir/cited" "$dir/laws"

# ---- crates, where "crate" or "crates" stands before the names, and in the first column of the wrong programs
find crates -mindepth 1 -maxdepth 1 -type d | sed 's|.*/||' | sort -u >"$dir/crates"
{
    grep -hoE '\bcrates? `[a-z0-9]+`((,| and|, and) `[a-z0-9]+`)*' README.md docs/*.md | grep -o '`[^`]*`'
    sed -n '/^## Wrong programs/,/^## What is not/p' docs/PROMISES.md | grep -oE '^\| `[a-z0-9]+` ' | grep -o '`[^`]*`'
} | tr -d '`' | sort -u >"$dir/spoken"
all_in 'no such crate' "$dir/spoken" "$dir/crates"

# ---- must-fail edits: those of the table of wrong programs, each under its crate; and every edit stands in the table
sed -n '/^## Wrong programs/,/^## What is not/p' docs/PROMISES.md | grep '^| ' |
    awk -F'|' 'NR > 1 { gsub(/[ `]/, "", $2); if ($2 != "") crate = $2; n = split($(NF - 1), edit, ";")
        for (i = 1; i <= n; i++) { gsub(/ /, "", edit[i]); if (edit[i] != "") print "crates/" crate "/must-fail/" edit[i] ".edit" } }' |
    grep -v '^crates/Crate/' | sort -u >"$dir/listed"
find crates -path '*/must-fail/*.edit' | sort -u >"$dir/edits"
all_in 'no such edit' "$dir/listed" "$dir/edits"
all_in 'not in docs/PROMISES.md' "$dir/edits" "$dir/listed"

# ---- identifiers: a word in backticks alone, and any with a hyphen, an underscore or a capital inside, is somewhere in the code
find crates host bench -type f ! -name '*.md' -exec cat {} + | tr -c 'A-Za-z0-9_-' '\n' | sort -u >"$dir/words"
{
    quoted docs/PROMISES.md docs/READING.md | grep -xE '[A-Za-z][A-Za-z0-9_-]*'
    quoted docs/PROMISES.md docs/READING.md | grep -v '/' | tr -c 'A-Za-z0-9_-' '\n' | grep -E '^[A-Za-z].*([a-z][A-Z]|[A-Za-z0-9]_[A-Za-z0-9]|[a-z0-9]-[a-z0-9])'
} | sed 's|-$||' | sort -u >"$dir/spans"
all_in 'not in the code' "$dir/spans" "$dir/words"

# ---- the line counts of docs/READING.md
grep -E '^\| crates/[^ ]*\.(antt|rt) \| [0-9]+ \|' docs/READING.md | awk -F'|' '{ gsub(/ /, "", $2); gsub(/ /, "", $3); print $2 " has " $3 " lines" }' | sort -u >"$dir/counts"
sed 's| has .*||' "$dir/counts" | while read -r path; do
    if [ -f "$path" ]; then echo "$path has $(($(wc -l <"$path"))) lines"; fi
done | sort -u >"$dir/true"
all_in 'another count' "$dir/counts" "$dir/true"
comm -13 "$dir/counts" "$dir/true" | sed 's|^|the true count: |'

echo "$passed passed, $failed failed"
[ "$failed" -eq 0 ]
