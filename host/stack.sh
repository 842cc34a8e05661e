#!/bin/sh
# What each call of the loader takes of the stack at most, whatever the files are: read off the archive's code, which has no calls through pointers. A line a
# call: its name, the bytes, and the functions on the deepest way with the bytes of each. memcpy and memset, the C library's, are counted as nothing.
# usage: host/stack.sh [ARCHIVE]   default target/staticlib/libs57.a at the repository's top
# The header's S57_STACK_.. stand on these numbers; host/tests.sh holds them to it. Ends with 1 where the code has something that can't be counted.
set -eu

top=$(cd "$(dirname "$0")/.." && pwd -P)
archive=${1:-$top/target/staticlib/libs57.a}
objdump=objdump
[ "$(uname -m)" = x86_64 ] || objdump=x86_64-linux-gnu-objdump # which comes with the compiler
listing=$(mktemp)
trap 'rm -f "$listing"' EXIT
"$objdump" -dr --no-show-raw-insn "$archive" >"$listing"

# A function takes its return address, and all that it pushes and subtracts anywhere: what it gives back in between isn't looked at, so the sum is rather too
# high. One that jumps into another is taken as calling it. A large frame is touched page by page, in a loop down to %r11. One that calls nobody may
# use 128 bytes more without taking them.
awk -v beyond=128 '
# The functions that call themselves, and how often each can be open: a list of formats with 4 levels of brackets left, 3, 2, 1, and none (crates/formats/src/lib.rt);
# the arranging of words with 32 levels left, 30, and so on by two to none (crates/words/src/arrange.rt).
BEGIN {
    times["formats::list"] = 5
    times["words::arrange::arrange"] = 17
}
function wrong(why) { print "host/stack.sh: " now ": " why | "cat >&2"; bad = 1; exit 1 }
function number(text, i, sum) {
    for (i = 1; i <= length(text); i++)
        sum = sum * 16 + index("0123456789abcdef", substr(text, i, 1)) - 1
    return sum
}
function constant() {
    if (!match($0, /\$0x[0-9a-f]+,/))
        wrong("no constant in " $0)
    return number(substr($0, RSTART + 3, RLENGTH - 4))
}
function calls(name) { called[now, ++count[now]] = name }
# What a function takes with all that it calls.
function deepest(name, i, below, most) {
    if (name in known)
        return known[name]
    if (name ~ /^mem(cpy|set)$/)
        return 0
    now = name
    if (!(name in frame) || open[name])
        wrong(open[name] ? "it calls itself" : "no such function")
    open[name] = 1
    for (i = 1; i <= count[name]; i++) {
        if (called[name, i] == name && name in times)
            continue
        below = deepest(called[name, i])
        if (below > most) {
            most = below
            next_of[name] = called[name, i]
        }
    }
    open[name] = 0
    known[name] = most + frame[name] * (name in times ? times[name] : 1)
    return known[name]
}
function print_call(call, name, way) {
    for (name = call; name != ""; name = next_of[name])
        way = way " " name "=" frame[name] (name in times ? "*" times[name] : "")
    print call, known[call] + beyond way " " beyond
}
/^[0-9a-f]+ <.*>:$/ {
    now = $0
    sub(/^[0-9a-f]+ </, "", now)
    sub(/>:$/, "", now)
    frame[now] = 8
    next
}
/: R_X86_64_[A-Z0-9]+\t/ {
    name = $0
    sub(/.*R_X86_64_[A-Z0-9]+\t/, "", name)
    sub(/[-+]0x[0-9a-f]+$/, "", name)
    if (sub(/^\.text\./, "", name) || /R_X86_64_PLT32\t/)
        calls(name)
    next
}
/\tcall +\*/ { wrong("a call through a pointer") }
/\tcall +[0-9a-f]+ <[^+]*>$/ {
    name = $0
    sub(/^[^<]*</, "", name)
    sub(/>$/, "", name)
    calls(name)
}
/\tpush/ { frame[now] += 8 }
/\tmov +%rsp,%r11$/ { paged = 1 }
/\tsub +.*,%r11$/ && paged { frame[now] += constant() }
/\tcmp +.*,%rsp$/ {
    if (!paged)
        wrong("a loop over" $0)
    paged = 0
}
/\tsub +.*,%rsp$/ && !paged { frame[now] += constant() }
/,%rsp$/ && !/\t(sub|add|cmp|test) / { wrong("the stack is moved by" $0) }
END {
    if (!bad) {
        split("s57_judge s57_admit s57_apply", call, " ")
        for (i = 1; i <= 3; i++) {
            deepest(call[i])
            print_call(call[i])
        }
    }
    if (bad)
        exit 1
}
' "$listing"
