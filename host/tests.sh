#!/bin/bash
# Builds the example hosts and looks at what they say of the sample cell and of broken copies of it, and at their exit status; installs them with the header and
# the archive, and builds a host with what is installed alone; counts the stack that the archive takes; then looks at what unit leaves in its folder, where it
# takes a base and where it is offered updates: after refusals, on a full disk, and cut off by force at random moments and before each of its steps; and at two
# folders that are offered files at random. The last line is 'N passed, M failed'; the status is 0 only where nothing failed. Wants what host/Makefile wants,
# and on Debian installs make, and what host/tests/install.sh wants, where they are missing.
set -u
if ! cd "$(dirname "$0")/.." || ! . bench/count.sh || ! . bench/compiler.sh; then
    echo '0 passed, 1 failed'
    exit 1
fi
if ! need make make || ! make -s -C host; then
    fault 'make -C host built no examples'
    close
fi
copies=$(mktemp -d) || { fault 'no temporary folder'; close; }
trap 'umount "$copies/disk" 2>/dev/null; rm -rf "$copies"' EXIT
mkfifo "$copies/never"
exec 9<>"$copies/never"
# shellcheck source=tests/shared.sh
. host/tests/shared.sh

# ---- judge

head -c 8000 samples/harbour.000 >"$copies/cut.000"
: >"$copies/empty.000"
head -c 5242881 /dev/zero >"$copies/long.000"
changed value.000 1631 '\000'   # the RCID in DSID is 0
changed pointer.000 3502 '\143' # the first edge begins at node 99
changed ring.000 5017 '\002'    # the first area's first edge runs backwards
grown many.000 1814 67 65500 1729 # more records than a re-issue may have: the first node; NOIN

says 0 'samples/harbour.000: The chart is good. (code 0, file 0, record 0)' $judge samples/harbour.000
says 1 "$(refusal "$copies/cut.000" 2 1 62)" $judge "$copies/cut.000"
says 1 "$(refusal "$copies/empty.000" 2 1 0)" $judge "$copies/empty.000"
says 1 "$(refusal "$copies/long.000" 1 1 0)" $judge "$copies/long.000"
says 1 "$(refusal "$copies/value.000" 6 1 1)" $judge "$copies/value.000"
says 1 "$(refusal "$copies/pointer.000" 18 1 23)" $judge "$copies/pointer.000"
says 1 "$(refusal "$copies/ring.000" 19 1 38)" $judge "$copies/ring.000"
says 0 "$copies/many.000: The chart is good. (code 0, file 0, record 0)" $judge "$copies/many.000"
says 2 "judge: $copies/none.000 can't be read" $judge "$copies/none.000"
says 2 'usage: judge CELL' $judge

# ---- the sentences: host/codes.txt is their one place; docs/CODES.md has them word for word, and so have the programs, also those of codes that no test
# here meets

host/codes.sh table >"$copies/table"
sed -n '/^| Code | It means | Do |$/,/^$/p' docs/CODES.md | grep '^| [0-9]' >"$copies/docs"
check "docs/CODES.md has another table than 'host/codes.sh table' makes of host/codes.txt" diff "$copies/docs" "$copies/table"
for code in {1..21}; do
    for program in judge unit; do
        check "target/host/$program doesn't say what docs/CODES.md has for $code" grep -qaF "$(sentence "$code")" "target/host/$program"
    done
done
# a line that isn't whole is no code left out
sed 's/^7|Twice|/7|/' host/codes.txt >"$copies/codes.txt" && cp host/codes.sh "$copies"
says 1 'host/codes.txt: line 11: not a code, a name, what it means and what to do' "$copies/codes.sh" texts
sed '/^7|/d' host/codes.txt >"$copies/codes.txt"
says 1 'host/codes.txt: line 11: the next code is 7' "$copies/codes.sh" texts

# ---- installed

# shellcheck source=tests/install.sh
. host/tests/install.sh

# ---- the stack

# shellcheck source=tests/stack.sh
. host/tests/stack.sh

# ---- unit

# shellcheck source=tests/admit.sh
. host/tests/admit.sh
# shellcheck source=tests/offer.sh
. host/tests/offer.sh
# shellcheck source=tests/random.sh
. host/tests/random.sh
close
