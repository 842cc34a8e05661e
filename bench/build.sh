#!/bin/sh
# Builds the programs of bench/ against static archives of the proved code.
# usage: bench/build.sh [ARCHIVE]
# ARCHIVE: default target/staticlib/libprobe.a at the repository's top, as `bench/archives.sh probe` writes it; an archive of another crate
# is looked for beside it. The programs go to $BENCH_OUT, default target/bench at the repository's top; bench/run.sh runs them.
set -eu

here=$(cd "$(dirname "$0")" && pwd -P)
top=$(dirname "$here")
archive=${1:-$top/target/staticlib/libprobe.a}
out=${BENCH_OUT:-$top/target/bench}
strict='-std=c11 -Wall -Wextra -Wpedantic -Werror'

# The programs, one a line: the folder and name of its file, and the crate whose archive it is linked with, or two as s57+probe; or `alone` for one that is built
# for this very machine with the sanitizers; or `elsewhere` for one that bench/fuzz/run.sh builds. Every other .c file of a folder is a part that any of them may use.
programs='
make/make_harbour alone
make/make_corrections alone
make/make_cells alone
make/write_held alone
tests/sanitize_frame alone
tests/sanitize_read alone
tests/sanitize_judge alone
tests/sanitize_admit alone
tests/sanitize_apply alone
tests/sanitize_show alone
tests/sanitize_tuned alone
tests/compare_listing alone
tests/compare_frame probe
tests/compare_read probe
tests/compare_show probe
tests/compare_judge s57
tests/compare_admit s57
tests/compare_apply s57
tests/compare_tuned s57
tests/boundary_judge s57
tests/boundary_admit s57
tests/boundary_apply s57
tests/offers s57
tests/stack s57
speed/speed_frame probe
speed/speed_read probe
speed/speed_judge s57
speed/speed_admit s57
speed/speed_apply s57
speed/instructions s57
fuzz/replay s57+probe
fuzz/seeds elsewhere
fuzz/target elsewhere
fuzz/choose elsewhere
fuzz/watch elsewhere
fuzz/watch_flags elsewhere
'

# shellcheck source=compiler.sh
. "$here/compiler.sh"
need gcc gcc libc6-dev # for this very machine
alone="gcc $strict -O1 -g -fsanitize=address,undefined -fno-sanitize-recover=all"
linked="$cc $strict -O2 -pthread"

mkdir -p "$out"
out=$(cd "$out" && pwd -P)
archives=$(cd "$(dirname "$archive")" 2>/dev/null && pwd -P) || archives=
cd "$here"

# What is no program.
parts() {
    for file in */*.c; do
        case $programs in
        *"
${file%.c} "*) ;;
        *) echo "${file%.c}" ;;
        esac
    done
}

# The parts, and then the programs of one way of building.
# shellcheck disable=SC2086
# (a command's words are meant to be split)
compile() { # OBJECTS COMMAND
    rm -rf "$1"
    for part in $(parts); do
        mkdir -p "$1/${part%/*}"
        # the tuned reader is timed as the fastest C that there is; of two levels the last holds
        case "$2 $part" in
        *' -O2 tuned/'*) level=-O3 ;;
        *) level= ;;
        esac
        $2 $level -c "$part.c" -o "$1/$part.o"
    done
}

# shellcheck disable=SC2086
build_alone() {
    compile "$out/alone" "$alone"
    for program in $(echo "$programs" | sed -n 's/ alone$//p'); do
        $alone "$program.c" "$out"/alone/*/*.o -o "$out/${program#*/}"
    done
}

# The archives of crates joined by +, or nothing where one is missing.
libraries_of() { # CRATES
    found=
    for crate in $(echo "$1" | tr + ' '); do
        [ -f "$archives/lib$crate.a" ] || return 0
        found="$found $archives/lib$crate.a"
    done
    echo "$found"
}

# shellcheck disable=SC2086
build_linked() {
    compile "$out/linked" "$linked"
    missing=
    for program in $(echo "$programs" | sed -e '/ alone$/d' -e '/ elsewhere$/d' -e 's/ /:/'); do
        file=${program%:*}
        libraries=$(libraries_of "${program#*:}")
        if [ -n "$libraries" ]; then
            $linked "$file.c" "$out"/linked/*/*.o $libraries -o "$out/${file#*/}"
        else
            missing="$missing ${file#*/}"
        fi
    done
    [ -z "$missing" ] || { echo "bench/build.sh: not built, their archives are missing beside $archive:$missing" >&2; exit 2; }
}

# side by side
build_alone &
first=$!
build_linked &
second=$!
wait "$first"
wait "$second"
