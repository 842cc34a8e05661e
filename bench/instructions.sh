#!/bin/bash
# Counts instructions of the calls, which unlike times are the same in every run: valgrind's on x86-64; on Arm, where valgrind can't run the archives' code, those
# that QEMU counts with bench/qemu_counter.c.
# usage: bench/instructions.sh            the proved calls on their ordinary rows, an instruction count a record, held to bench/speed/bounds.txt; ends with the
#                                         line 'N passed, M failed'
#        bench/instructions.sh table CALL..      the counts of all three sides on all rows, in millions, as tables in Markdown
#        bench/instructions.sh csv CALL..        the same for bench/speed/plot.py
# Wants what bench/build.sh built, and installs the tool that counts where it is missing.
set -eu
top=$(cd "$(dirname "$0")/.." && pwd -P)
program=${BENCH_OUT:-$top/target/bench}/instructions
folder=$(mktemp -d)
trap 'rm -rf "$folder"' EXIT
# shellcheck source=compiler.sh
. "$top/bench/compiler.sh"

if [ "$(uname -m)" = x86_64 ]; then
    need valgrind valgrind libc6-dbg >&2
    counting() { valgrind --tool=cachegrind --cache-sim=no --cachegrind-out-file=/dev/null "$@"; }
    running() { "$@"; }
else
    # Debian's QEMU, since the toolchain's takes no plugins
    need qemu-x86_64 qemu-user >&2
    gcc -std=c11 -O2 -shared -fPIC "$top/bench/qemu_counter.c" -o "$folder/counter.so"
    counting() { qemu-x86_64 -plugin "$folder/counter.so" "$@"; }
    running() { qemu-x86_64 "$@"; }
fi

counted() { # CALL SIDE TIMES
    counting "$program" call "$1" "$2" "$folder" "$3" 2>&1 | sed -n 's/.*I *refs: *//p' | tr -d ,
}

# What one call takes behind so many others: of the tuned reader the first sets up what stays.
count() { # CALL SIDE BEFORE
    local before after
    before=$(counted "$1" "$2" "$3")
    after=$(counted "$1" "$2" $(($3 + 1)))
    echo $((after - before))
}

rows() { # CALL
    local row=0 records
    running "$program" rows "$1" | while read -r name; do
        records=$(running "$program" write "$1" "$row" "$folder")
        echo "\"${1^}\",\"$name\",$(count "$1" proved 0),$(count "$1" plain 0),$(count "$1" tuned 1),$records"
        row=$((row + 1))
    done
}

table() { # CALL
    printf '%s\n\n| row | records | proved | plain C | tuned C | proved / plain | proved / tuned |\n|---|---:|---:|---:|---:|---:|---:|\n' "${1^}"
    rows "$1" | sed -e 's/^"[^"]*","//' -e 's/",/|/' -e 's/,\([0-9]*\),\([0-9]*\),\([0-9]*\)$/|\1|\2|\3/' |
        awk -F'|' '{ printf "| %s | %d | %.3f | %.3f | %.3f | %.2f | %.2f |\n", $1, $5, $2 / 1e6, $3 / 1e6, $4 / 1e6, $2 / $3, $2 / $4 }'
    echo
}

wanted=${1:-bounds}
case $wanted in
table | csv)
    shift
    for call in "$@"; do
        if [ "$wanted" = table ]; then table "$call"; else rows "$call" | sed 's/,[0-9]*$//'; fi
    done
    exit ;;
esac

passed=0
failed=0
while read -r call bound; do
    records=$(running "$program" write "$call" 0 "$folder")
    each=$(($(count "$call" proved 0) / records))
    if [ "$each" -gt 0 ] && [ "$each" -le "$bound" ]; then
        passed=$((passed + 1))
        echo "$call, ordinary: $each instructions a record, at most $bound"
    else
        failed=$((failed + 1))
        echo "FAILED: $call, ordinary: $each instructions a record, more than $bound"
    fi
done <<EOF
$(sed -e 's/#.*//' -e '/^[[:space:]]*$/d' "$top/bench/speed/bounds.txt")
EOF
echo "$passed passed, $failed failed"
[ "$failed" -eq 0 ]
