# shellcheck shell=bash
# A part of host/tests.sh: the header's S57_STACK_.. beside what host/stack.sh reads off the archive, and host/stack.sh on code that is known. What the calls do
# take of a stack that is just as long, bench/tests/stack.c shows. `copies` is host/tests.sh's temporary folder, `cc` bench/compiler.sh's compiler.
# shellcheck disable=SC2154

library=8192 # for memcpy and memset

# ---- the header

host/stack.sh target/staticlib/libs57.a >"$copies/stack" || fault "host/stack.sh can't count the archive"
while read -r call bytes way; do
    said=$(sed -n "s/^#define S57_STACK_$(echo "${call#s57_}" | tr '[:lower:]' '[:upper:]') \([0-9]*\)\$/\1/p" host/s57loader.h)
    least=$(((bytes + library + 4095) / 4096 * 4096))
    echo "$call: $bytes bytes of stack at most, the header says $said; $way"
    check "host/s57loader.h says $said bytes of stack for $call; it takes up to $bytes, so with $library more, in whole pages, say $least" \
        [ "${said:-0}" -ge $((bytes + library)) ]
done <"$copies/stack"
check 'host/stack.sh says nothing of some call' [ "$(cut -d ' ' -f 1 "$copies/stack" | xargs)" = 's57_judge s57_admit s57_apply' ]

# ---- code that is known

# An archive of three functions and one below them, each of which fills an area of its own.
# shellcheck disable=SC2086
known_code() { # BODY-OF-THE-ONE-BELOW
    cat >"$copies/known.c" <<END
#include <string.h>
int below(int n, int (*by)(int))
{
    $1
}
#define CALL(name, size) int name(int n, int (*by)(int)) { volatile char area[size]; memset((char *)area, n, size); return below(n, by) + area[n]; }
CALL(s57_judge, 3000)
CALL(s57_admit, 50000)
CALL(s57_apply, 600000)
END
    rm -f "$copies/known.a"
    $cc -std=c11 -O2 -fPIC -fno-inline -fno-stack-protector -fno-stack-clash-protection -ffunction-sections -c "$copies/known.c" -o "$copies/known.o" &&
        ar rc "$copies/known.a" "$copies/known.o"
}
# Whether the counts of the three are these, but for registers saved.
about() { # BYTES BYTES BYTES
    local call bytes
    while read -r call bytes _; do
        [ "$bytes" -ge "$1" ] && [ "$bytes" -le $(($1 + 400)) ] || return 1
        shift
    done < <(host/stack.sh "$copies/known.a")
    [ $# -eq 0 ]
}
known_code 'volatile char area[20000]; area[n] = 1; return area[n + 1];'
check 'host/stack.sh counts known code wrongly' about 23000 70000 620000
known_code 'volatile char area[n]; area[0] = 1; return area[n - 1];'
check 'host/stack.sh counts an area of any size' fails host/stack.sh "$copies/known.a"
known_code 'volatile char area[100]; area[n] = (char)by(n); return area[n + 1];'
check 'host/stack.sh counts a call through a pointer' fails host/stack.sh "$copies/known.a"
known_code 'volatile char area[100]; area[n] = n < 9 ? (char)below(n + 1, by) : 1; return area[n + 1];'
check 'host/stack.sh counts a function that calls itself' fails host/stack.sh "$copies/known.a"
