#!/bin/sh
# Runs a program that bench/build.sh built, on Arm under the toolchain's emulator.
# usage: bench/run.sh PROGRAM [ARGUMENTS]
set -eu

top=$(cd "$(dirname "$0")/.." && pwd -P)
program=${BENCH_OUT:-$top/target/bench}/$1
name=$1
shift
# a script counts the instructions of its program
[ "$name" != bounds ] || exec "$top/bench/instructions.sh"
# compare_listing is told behind -- how to start the proved program: as bench/list does, unless the caller has said it.
case "$name $* " in
*' -- '*) ;;
'compare_listing '*)
    listing=$top/target/bin/listing
    [ -x "$listing" ] || { echo "bench/run.sh: no $listing" >&2; exit 2; }
    set -- "$@" -- "$listing" ;;
esac
# replay without inputs replays those that are kept
[ "$name $#" != 'replay 0' ] || set -- --all "$top"/bench/fuzz/corpus/*
case $name in
sanitize_* | compare_listing | make_* | write_held)
    # Built for this very machine. Some kernels place memory where the address sanitizer wants its own; a fixed layout avoids that.
    if setarch "$(uname -m)" -R true 2>/dev/null; then
        exec setarch "$(uname -m)" -R "$program" "$@"
    fi
    exec "$program" "$@" ;;
esac
if [ "$(uname -m)" = aarch64 ]; then
    exec "$(dirname "$(readlink -f "$(command -v rt)")")/../on/aarch64/toolchain/bin/qemu-x86_64" "$program" "$@"
fi
exec "$program" "$@"
