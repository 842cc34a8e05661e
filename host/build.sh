#!/bin/sh
# Links the example hosts with the archive of the crate `s57`; `make -C host` makes the archive first.
# usage: host/build.sh [ARCHIVE]
# ARCHIVE: default target/staticlib/libs57.a at the repository's top. The programs are target/host/judge and target/host/unit there, which host/judge.sh
# and host/unit.sh run; the same two under the names by which host/install.sh installs them, which is how they call themselves, s57-judge and s57-unit;
# and for host/tests.sh target/host/unit_faults, a unit that fails where it is told to.
set -eu

here=$(cd "$(dirname "$0")" && pwd -P)
top=$(dirname "$here")
archive=${1:-$top/target/staticlib/libs57.a}
# shellcheck source=../bench/compiler.sh
. "$top/bench/compiler.sh"

archive=$(cd "$(dirname "$archive")" && pwd -P)/$(basename "$archive")
out=$top/target/host
mkdir -p "$out"
cd "$here"
./codes.sh texts >"$out/texts.h" # what the hosts say of each code

# shellcheck disable=SC2086
# (the compiler's words are meant to be split)
program() { # NAME WORDS..
    name=$1
    shift
    $cc -std=c11 -Wall -Wextra -Wpedantic -Werror -O2 -I "$out" "$@" "$archive" -o "$out/$name"
}

program judge judge.c common.c
program unit unit.c keep.c shown.c common.c
program s57-judge -DOWN_NAME='"s57-judge"' judge.c common.c
program s57-unit -DOWN_NAME='"s57-unit"' unit.c keep.c shown.c common.c
program unit_faults unit.c keep.c shown.c common.c tests/faults.c \
    -Wl,--wrap=openat,--wrap=read,--wrap=write,--wrap=fsync,--wrap=close,--wrap=renameat,--wrap=unlinkat
