#!/bin/sh
# Proves the crates named and all that they stand on, as far as an earlier check hasn't, and puts what C links with or runs where the other scripts look:
# target/staticlib/libNAME.a of a static library (s57, probe), target/bin/NAME of a program (listing, frames).
# usage: bench/archives.sh NAME..
# What rt says goes to standard error.
set -eu

top=$(cd "$(dirname "$0")/.." && pwd -P)
command -v rt >/dev/null || PATH=$PATH:/opt/rattle/bin
command -v rt >/dev/null || { echo 'bench/archives.sh: no rt: the Rattle toolchain is not on the path' >&2; exit 2; }
[ $# -gt 0 ] || { echo 'usage: bench/archives.sh NAME..' >&2; exit 2; }

mkdir -p "$top/target/staticlib" "$top/target/bin"
for name; do
    folder=$top/crates/$name
    if [ -f "$folder/src/main.rt" ]; then
        # rt run makes the program and runs it, here on nothing, on which it may end as it likes: what counts is that the program is there
        made=$folder/out/$name to=$top/target/bin/$name
        rm -f "$made"
        (cd "$folder" && rt run </dev/null >/dev/null) || [ -x "$made" ] || { echo "bench/archives.sh: rt run made no $made" >&2; exit 1; }
    else
        made=$folder/out/lib$name.a to=$top/target/staticlib/lib$name.a
        rm -f "$made"
        (cd "$folder" && rt lib </dev/null) >&2
    fi
    [ -s "$made" ] || { echo "bench/archives.sh: no $made" >&2; exit 1; }
    cp "$made" "$to"
done
